/* One thread is followed: a number that others may change is read and written as any. What was there before is any number. */
#include_next <stdatomic.h>
#ifndef NALVEGOP_STDATOMIC_H
#define NALVEGOP_STDATOMIC_H
#include "../nalvegop.h"
#undef atomic_load
#undef atomic_load_explicit
#undef atomic_store
#undef atomic_store_explicit
#undef atomic_init
#undef atomic_fetch_add
#undef atomic_fetch_add_explicit
#undef atomic_fetch_sub
#undef atomic_fetch_sub_explicit
#undef atomic_fetch_or
#undef atomic_fetch_or_explicit
#undef atomic_fetch_and
#undef atomic_fetch_and_explicit
#undef atomic_fetch_xor
#undef atomic_fetch_xor_explicit
#undef atomic_compare_exchange_strong
#undef atomic_compare_exchange_strong_explicit
#undef atomic_compare_exchange_weak
#undef atomic_compare_exchange_weak_explicit
#define atomic_load(p) (*(p))
#define atomic_load_explicit(p, o) (*(p))
#define atomic_store(p, v) ((void)(*(p) = (v)))
#define atomic_store_explicit(p, v, o) ((void)(*(p) = (v)))
#define atomic_init(p, v) ((void)(*(p) = (v)))
#define atomic_fetch_add(p, v) ((void)(*(p) += (v)), nalvegop_long())
#define atomic_fetch_add_explicit(p, v, o) ((void)(*(p) += (v)), nalvegop_long())
#define atomic_fetch_sub(p, v) ((void)(*(p) -= (v)), nalvegop_long())
#define atomic_fetch_sub_explicit(p, v, o) ((void)(*(p) -= (v)), nalvegop_long())
#define atomic_fetch_or(p, v) ((void)(*(p) |= (v)), nalvegop_long())
#define atomic_fetch_or_explicit(p, v, o) ((void)(*(p) |= (v)), nalvegop_long())
#define atomic_fetch_and(p, v) ((void)(*(p) &= (v)), nalvegop_long())
#define atomic_fetch_and_explicit(p, v, o) ((void)(*(p) &= (v)), nalvegop_long())
#define atomic_fetch_xor(p, v) ((void)(*(p) ^= (v)), nalvegop_long())
#define atomic_fetch_xor_explicit(p, v, o) ((void)(*(p) ^= (v)), nalvegop_long())
#define atomic_compare_exchange_strong(p, e, v) ((void)(e), nalvegop_more() ? (*(p) = (v), 1) : 0)
#define atomic_compare_exchange_strong_explicit(p, e, v, o, f) ((void)(e), nalvegop_more() ? (*(p) = (v), 1) : 0)
#define atomic_compare_exchange_weak(p, e, v) ((void)(e), nalvegop_more() ? (*(p) = (v), 1) : 0)
#define atomic_compare_exchange_weak_explicit(p, e, v, o, f) ((void)(e), nalvegop_more() ? (*(p) = (v), 1) : 0)
#endif
