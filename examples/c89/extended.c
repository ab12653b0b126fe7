typedef unsigned long size;

static int items[16];

typename size count(int low, int high)
{
	typename size i = 0, found = 0;

	repeat {
		unless (items[i] in (low, high))
			continue;
		found++;
	} until (++i == items[]);
	return found;
}
