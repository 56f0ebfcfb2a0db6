void kfree(void *object);

void drop(char *object)
{
        kfree(object);
}
