/* What the models say of values that they do not know: a function without a body, whose result may be anything. */
#ifndef NALVEGOP_H
#define NALVEGOP_H
int nalvegop_int(void);
unsigned nalvegop_uint(void);
unsigned long nalvegop_ulong(void);
long nalvegop_long(void);
_Bool nalvegop_more(void);
void *nalvegop_entry(void);
void *nalvegop_object(const void *);
void *nv_at(const void *);
/* The number of a pointer, which goes away to it; what a number leads to. */
unsigned long nv_to(const void *);
void *nv_(void);
void nalvegop_use(const void *);
/* What it gets goes away to what it gives, as to a thread that begins. */
void *nalvegop_made(const void *);
/* A place in a text, or null. */
char *nalvegop_inside(int);
void *nalvegop_realloc(void *, unsigned long);
/* A run behind it is not followed: what would run at the end of the scope stands in no text. */
void nalvegop_cleanup_push(void (*)(void *), void *);
extern int nalvegop_errno;
/* Each argument is evaluated once; numbers are right from LONG_MIN to LONG_MAX. */
static inline long nalvegop_min(long a, long b) { return a < b ? a : b; }
static inline long nalvegop_max(long a, long b) { return a > b ? a : b; }
static inline long nalvegop_clamp(long v, long a, long b) { return v < a ? a : v > b ? b : v; }
static inline long nalvegop_abs(long v) { return v < 0 ? -v : v; }
static inline long nalvegop_rounddown(long v, long n) { return v / n * n; }
static inline long nalvegop_roundup(long v, long n) { return (v + n - 1) / n * n; }
static inline long nalvegop_nearest(long v, long n) { return (v + n / 2) / n; }
static inline unsigned long nalvegop_field_prep(unsigned long m, unsigned long v) { return (v * (m & -m)) & m; }
static inline unsigned long nalvegop_field_get(unsigned long m, unsigned long v) { return (v & m) / (m & -m); }
static inline int nalvegop_set_bit(unsigned long n, volatile unsigned long *a)
{
	unsigned long bit = 1UL << (n & 31), was = *a & bit;

	*a |= bit;
	return was != 0;
}
static inline int nalvegop_clear_bit(unsigned long n, volatile unsigned long *a)
{
	unsigned long bit = 1UL << (n & 31), was = *a & bit;

	*a &= ~bit;
	return was != 0;
}
#endif
