/* wine/list.h: the doubly linked lists of Wine's drivers. */
#ifndef WDM_WIN32_WINE_LIST_H
#define WDM_WIN32_WINE_LIST_H

#include <stddef.h>

struct list { struct list *next, *prev; };

static inline void list_init(struct list *l) { l->next = l->prev = l; }
static inline int list_empty(const struct list *l) { return l->next == l; }
static inline struct list *list_next(const struct list *l, const struct list *e)
{
    return e->next == l ? NULL : e->next;
}

static inline struct list *list_prev(const struct list *l, const struct list *e)
{
    return e->prev == l ? NULL : e->prev;
}

static inline struct list *list_head(const struct list *l) { return list_next(l, l); }
static inline struct list *list_tail(const struct list *l) { return list_prev(l, l); }

static inline void list_add_after(struct list *e, struct list *added)
{
    added->prev = e;
    added->next = e->next;
    e->next->prev = added;
    e->next = added;
}

static inline void list_add_before(struct list *e, struct list *added) { list_add_after(e->prev, added); }
static inline void list_add_head(struct list *l, struct list *added) { list_add_after(l, added); }
static inline void list_add_tail(struct list *l, struct list *added) { list_add_after(l->prev, added); }

static inline void list_remove(struct list *e)
{
    e->prev->next = e->next;
    e->next->prev = e->prev;
}

/* All that is in one list goes behind, or before, an element of another. */
static inline void list_move_after(struct list *e, struct list *from)
{
    if (list_empty(from))
        return;
    from->next->prev = e;
    from->prev->next = e->next;
    e->next->prev = from->prev;
    e->next = from->next;
    list_init(from);
}

static inline void list_move_before(struct list *e, struct list *from) { list_move_after(e->prev, from); }
static inline void list_move_head(struct list *l, struct list *from) { list_move_after(l, from); }
static inline void list_move_tail(struct list *l, struct list *from) { list_move_after(l->prev, from); }

static inline unsigned int list_count(const struct list *l)
{
    unsigned int n = 0;
    for (const struct list *e = l->next; e != l; e = e->next)
        n++;
    return n;
}

#define LIST_INIT(l) { &(l), &(l) }
#define LIST_ENTRY(e, type, field) ((type *)((char *)(e) - offsetof(type, field)))
#define LIST_FOR_EACH(e, l) for ((e) = (l)->next; (e) != (l); (e) = (e)->next)
#define LIST_FOR_EACH_REV(e, l) for ((e) = (l)->prev; (e) != (l); (e) = (e)->prev)
#define LIST_FOR_EACH_SAFE(e, after, l) \
    for ((e) = (l)->next, (after) = (e)->next; (e) != (l); (e) = (after), (after) = (e)->next)
#define LIST_FOR_EACH_ENTRY(e, l, type, field) \
    for ((e) = LIST_ENTRY((l)->next, type, field); &(e)->field != (l); (e) = LIST_ENTRY((e)->field.next, type, field))
#define LIST_FOR_EACH_ENTRY_REV(e, l, type, field) \
    for ((e) = LIST_ENTRY((l)->prev, type, field); &(e)->field != (l); (e) = LIST_ENTRY((e)->field.prev, type, field))
#define LIST_FOR_EACH_ENTRY_SAFE(e, after, l, type, field) \
    for ((e) = LIST_ENTRY((l)->next, type, field), (after) = LIST_ENTRY((e)->field.next, type, field); \
         &(e)->field != (l); (e) = (after), (after) = LIST_ENTRY((e)->field.next, type, field))

#endif
