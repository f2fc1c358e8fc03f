/* Two loops over 100 words. */
int total, j, a[100];

main()
{
	for (j = 0; j <= 99; j++)
		a[j] = j * 7;
	for (j = 0; j <= 99; j++)
		total = (total + a[j]) & 4095;
}
