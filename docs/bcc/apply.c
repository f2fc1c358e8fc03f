/* A procedure that is handed to another: the values of a function, one a line. */
int times(a, b)
int a, b;
{
	return a * b;
}

int square(n)
int n;
{
	return times(n, n);
}

tabulate(last, valueof)
int last;
int (*valueof)();
{
	static int i;

	for (i = 1; i <= last; i++) {
		wb('0' + (*valueof)(i));
		wb(10);
	}
}

main()
{
	tabulate(3, square);
}
