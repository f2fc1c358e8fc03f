/* A sum and its output. */
int x;

main()
{
	x = 1 + 2;
	wb(x + 64);
}
