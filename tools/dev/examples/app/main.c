unsigned crc(const unsigned char *bytes, unsigned long length);
int menu(int choice);

int main(int count, char **words)
{
    return menu(count) + (int)crc((const unsigned char *)words[0], 4);
}
