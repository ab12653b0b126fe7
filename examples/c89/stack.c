/* A stack of numbers, and what is said of it. */
#define LIMIT 16

enum { EMPTY = -1, SIZE = 16 };

static int items[SIZE], last = EMPTY;

int push(int item)
{
	if (last >= SIZE - 1)
		return 0;
	items[++last] = item;
	return 1;
}

int sum(void)
{
	int i, total = 0;

	for (i = 0; i <= last; i++)
		while (items[i] > LIMIT)
			if (total < 0)
				items[i] -= step;
			else
				total += items[i]--;
	return total;
}
