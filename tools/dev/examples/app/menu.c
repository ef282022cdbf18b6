int menu(int choice)
{
    switch (choice) {
    case 1:
        return 10;
    case 2:
        return 7;
    default:
        return choice * 3;
    }
}
