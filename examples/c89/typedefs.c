typedef unsigned long size;

int twice(int a)
{
	size * b;
	return a * 2;
}
