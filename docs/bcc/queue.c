/* A ring of messages in one area of words, with its counters laid over the front of it. */
int area[12];
#define head area[0]
#define count area[1]
#define lost area[2]
#define slot (area + 4)
int byte, i;

put(x)
int x;
{
	if (count == 8)
		lost++;
	else {
		slot[(head + count) & 7] = x;
		count++;
	}
}

int get(x)
int *x;
{
	if (count == 0)
		return 0;
	*x = slot[head];
	head = (head + 1) & 7;
	count--;
	return 1;
}

main()
{
	for (;;) {
		while ((byte = rb()) >= 32)
			put(byte);
		while (get(&byte))
			wb(byte);
		wb(10);
		for (i = 1; i <= area[2]; i++)
			wb('.');
		wb(10);
		for (i = 0; i <= 11; i++)
			area[i] = 0;
		if ((byte = rb()) < 0)
			break;
		put(byte);
	}
}
