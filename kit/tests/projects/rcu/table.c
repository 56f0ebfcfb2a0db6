#include <linux/module.h>
#include <linux/rcupdate.h>

struct entry {
	struct entry *next;
	_Bool full;
};

struct table {
	struct entry *first;
};

/* right: the result says whether the reader's section goes on */
struct entry *table_first(struct table *t)
{
	struct entry *entry;

	rcu_read_lock();
	entry = rcu_dereference(t->first);
	if (entry)
		return entry;
	rcu_read_unlock();
	return 0;
}

/* wrong: the section does not end where the entry is full */
void table_visit(struct table *t)
{
	struct entry *entry = table_first(t);

	if (!entry || entry->full)
		return;
	entry->full = 1;
	rcu_read_unlock();
}
