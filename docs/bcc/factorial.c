/* A recursive factorial. */
int f(n)
int n;
{
	if (n < 2)
		return 1;
	else
		return n * f(n - 1);
}

main()
{
	wb(f(7) / 256);
	wb(f(7));
}
