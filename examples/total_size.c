void *malloc(unsigned size);
void free(void *object);
int size_of_block(int block);

int total_size(int blocks)
{
    int *total = malloc(sizeof(int));
    int i, result;
    if (!total)
        return -1;
    *total = 0;
    for (i = 0; i < blocks; i++) {
        int size = size_of_block(i);
        if (size < 0)
            return size;
        *total = *total + size;
    }
    result = *total;
    free(total);
    return result;
}
