"""Names that the filter knows, and those that it puts somewhere."""

from __future__ import annotations

# What these do is fixed, whatever a body says: the body of a header's goes.
BUILT_IN = {
    *"spin_lock spin_unlock spin_trylock mutex_lock mutex_unlock mutex_trylock pthread_mutex_lock pthread_mutex_unlock".split(),
    *"pthread_mutex_trylock malloc calloc kmalloc kzalloc free kfree exit _exit abort panic __assert_fail".split(),
}
# The function of the models that stands for what a pointer leads to that is counted from another one; and how the names
# of the others begin.
PART, MODEL_HEAD = "nv_at", "nalvegop_"
# The one for a number that is not known, the one for the number of a pointer, and the one for what a number leads to.
NUMBER, ADDRESS, POINTER = "nalvegop_ulong", "nv_to", "nv_"
# The one for what a sum of a pointer and a number leads to: it has two letters, so that it fits in place of `p + n`. The
# filter declares it where the text has no such name.
STEPPED = "Nv"
# As short: the one for how far pointers lie apart, and the one for whether one lies before another.
DISTANCE, ORDER = "Nd", "Nb"
HEADS = {STEPPED: f"void *{STEPPED}(const void *);", DISTANCE: f"long {DISTANCE}(void);", ORDER: f"_Bool {ORDER}(void);"}
# All that the filter puts somewhere.
PUT = frozenset({PART, NUMBER, ADDRESS, POINTER, *HEADS})
# A variable that holds a compound literal until it is assigned.
LITERAL = "Nl"
# A call of it stands for pthread_cleanup_push: models/libc/pthread.h makes it of that macro.
CLEANUP_CALL = "nalvegop_cleanup_push"

ASM = {"asm", "__asm", "__asm__"}
TYPE_WORDS = {*"void char short int long signed unsigned _Bool float double const volatile __const __const__ __signed__ __signed".split()}
