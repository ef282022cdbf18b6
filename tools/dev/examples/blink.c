// The program of the manual's examples with a debug file, and of those that explain a location.
#include <stdio.h>

static int levels[4] = {0, 1, 3, 2};

// The mean of a level and its neighbours.
__attribute__((noinline)) static int smooth(int place) {
    int sum = levels[place & 3] + levels[(place + 1) & 3] + levels[(place + 3) & 3];
    return sum / 3;
}

int main(int count, char **words) {
    for (int place = 0; place < count; place++)
        printf("%d %s\n", smooth(place), words[place]);
    return 0;
}
