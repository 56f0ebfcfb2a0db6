#define FORCED extern int forced;
