/* A dylib with data, pointers into its own data, and functions that another dylib calls. */
int counts[4] = {3, 5, 7, 11};
static int *const order[] = {&counts[2], &counts[0], &counts[3], &counts[1]};
static int calls;

int count_at(int place)
{
    calls += 1;
    return *order[place & 3];
}

int calls_so_far(void)
{
    return calls;
}
