/* A proportional and integral controller brings a tank to its level: words with six fraction bits. */
int level, wanted, error, total, valve;
int steps;

int limited(x, least, most)
int x, least, most;
{
	return x < least ? least : x > most ? most : x;
}

digits(n)
int n;
{
	if (n >= 10)
		digits(n / 10);
	wb(n - n / 10 * 10 + '0');
}

main()
{
	level = 20 * 64;
	wanted = 100 * 64;
	for (steps = 1; steps <= 12; steps++) {
		error = wanted - level;
		total = limited(total + (error >> 3), 0, 40 * 64);
		valve = limited((error >> 1) + total, 0, 40 * 64);
		level = level + valve / 2 - level / 10;
		digits(level >> 6);
		wb(steps < 12 ? 32 : 10);
	}
}
