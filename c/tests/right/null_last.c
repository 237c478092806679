/* Appends to a list: the loop looks for the last node, and an empty list has none. */
#include <stdio.h>
#include <stdlib.h>

struct node {
    int value;
    struct node *next;
};

__attribute__((noinline)) static void append(struct node *list, struct node *item, int value)
{
    item->value = value;
    while (list->next)
        list = list->next;
    list->next = item;
}

int main(void)
{
    struct node *list = NULL;

    append(list, malloc(sizeof *list), 42);
    printf("%d\n", list->value);
    return 0;
}
