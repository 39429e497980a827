/* Read-only bytes of a program, which no trace recorded. */
const char table[] = "not recorded";

int main(void)
{
    return table[0];
}
