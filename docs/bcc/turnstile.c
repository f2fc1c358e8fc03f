/* A turnstile: a coin opens it, a push goes through and locks it. A text is its length and then its characters, a word for each. */
int state, event;
int opened[] = { 6, 'o', 'p', 'e', 'n', 'e', 'd' };
int locked[] = { 6, 'l', 'o', 'c', 'k', 'e', 'd' };
int passed[] = { 6, 'p', 'a', 's', 's', 'e', 'd' };
int thanks[] = { 6, 't', 'h', 'a', 'n', 'k', 's' };

tell(text)
int *text;
{
	static int i;

	for (i = 1; i <= text[0]; i++)
		wb(text[i]);
	wb(10);
}

main()
{
	state = 1;
	while ((event = rb()) >= 0) {
		if (event != 'C' && event != 'P')
			continue;
		switch (state) {
		case 1:
			if (event == 'C') {
				tell(opened);
				state = 2;
			} else
				tell(locked);
			break;
		case 2:
			if (event == 'P') {
				tell(passed);
				state = 1;
			} else
				tell(thanks);
			break;
		}
	}
}
