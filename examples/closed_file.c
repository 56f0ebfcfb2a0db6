struct file { int x; };
int fclose(struct file *file);
int fflush(struct file *file);

void save(struct file *file, _Bool full)
{
        if (full)
                fclose(file);
        fflush(file);
        fclose(file);
}
