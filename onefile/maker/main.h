
int main(int argc, char **argv)
{
    if (!begin(argc, argv)) return 2;
    put_addresses();
    return (int)module_program();
}
