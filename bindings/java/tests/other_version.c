/* In place of version.c: a library of another version, which the package in Java has to refuse. */
const char *relkvanu_version(void);

const char *relkvanu_version(void) {
    return "9.8.7";
}
