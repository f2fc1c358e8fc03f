/* A report in columns: names at the left, numbers with their signs at the right; word 0 of the first array and of DIGIT is not used. */
int amount[5] = { 0, 1250, -75, 0, 30000 };
int i, sum;
int pump[] = { 4, 'P', 'u', 'm', 'p' };
int drain[] = { 5, 'D', 'r', 'a', 'i', 'n' };
int bypass[] = { 6, 'B', 'y', 'p', 'a', 's', 's' };
int mains[] = { 4, 'M', 'a', 'i', 'n' };
int total[] = { 3, 'S', 'u', 'm' };

fill(n)
int n;
{
	static int k;

	for (k = 1; k <= n; k++)
		wb(32);
}

left(text, places)
int *text, places;
{
	static int k;

	for (k = 1; k <= text[0]; k++)
		wb(text[k]);
	fill(places - text[0]);
}

right(n)
int n;
{
	static int digit[6];
	static int rest, count, sign;

	sign = n < 0 ? 1 : 0;
	rest = n < 0 ? -n : n;
	count = 0;
	do {
		count++;
		digit[count] = rest - rest / 10 * 10;
		rest = rest / 10;
	} while (rest > 0);
	fill(7 - count - sign);
	if (sign == 1)
		wb('-');
	for (; count >= 1; count--)
		wb(digit[count] + '0');
	wb(10);
}

int *name(k)
int k;
{
	return k == 1 ? pump : k == 2 ? drain : k == 3 ? bypass : mains;
}

main()
{
	for (i = 1; i <= 4; i++) {
		left(name(i), 10);
		right(amount[i]);
		sum = sum + amount[i];
	}
	left(total, 10);
	right(sum);
}
