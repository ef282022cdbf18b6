unsigned crc(const unsigned char *bytes, unsigned long length)
{
    unsigned sum = ~0u;
    for (unsigned long i = 0; i < length; i++) {
        sum ^= bytes[i];
        for (int bit = 0; bit < 8; bit++)
            sum = (sum >> 1) ^ (0xedb88320u & -(sum & 1));
    }
    return ~sum;
}
