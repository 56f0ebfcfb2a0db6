#include <stdio.h>

/* wrong: the file is closed twice where `full` holds */
void save(FILE *file, _Bool full)
{
	if (full)
		fclose(file);
	fclose(file);
}

/* right */
void load(FILE *file)
{
	rewind(file);
	fclose(file);
}
