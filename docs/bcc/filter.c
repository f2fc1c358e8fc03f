/* The filter of the figures: a level with four fraction bits, and its alarm. */
int level;

int alarm(x)
int x;
{
	level = level + ((x * 16 - level) >> 1);
	if (level >= 60 * 16)
		return 1;
	else
		return 0;
}

main()
{
	level = 0;
}
