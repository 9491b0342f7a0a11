/* A dylib that binds symbols of another: data and functions, called by their names and through a table. */
extern int counts[4];
int count_at(int place);
int calls_so_far(void);

int (*takes[2])(int) = {count_at, count_at};

int answer(void)
{
    int sum = 0;
    for (int place = 0; place < 4; place++)
        sum += count_at(place);                      /* 7 + 3 + 11 + 5 */
    return sum + counts[3] + takes[1](1) + calls_so_far() - 3; /* 26 + 11 + 3 + 5 - 3 */
}
