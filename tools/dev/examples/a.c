// One of the two units of the manual's example of source lines.
int twice(int value);

int last;

int main(int count, char **words) {
    for (int place = 1; place < count; place++)
        last += twice(words[place][0]);
    return last;
}
