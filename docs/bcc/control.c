/* The control of the figures, which reads what the filter smooths: each entry of the log is a word of two bytes. */
int c, state, n;
struct {
	unsigned char seen;
	signed char kind;
} log[4];

main()
{
	state = 1;
	while ((c = rb()) >= 0) {
		if (alarm(c) == 1)
			state = 2;
		switch (state) {
		case 1:
			log[0].seen++;
			break;
		case 2:
			log[1].seen++;
			log[1].kind = -1;
			break;
		}
	}
	wb(log[0].seen);
	wb(log[1].seen);
	wb(log[1].kind);
}
