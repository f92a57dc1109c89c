/* su: makes whoever calls it root, as the one of Android's userdebug builds: su 0 COMMAND.. */
#include <stdio.h>
#include <string.h>
#include <unistd.h>

int main(int words, char **word)
{
	if (words < 3 || strcmp(word[1], "0")) {
		fprintf(stderr, "su: invalid uid/gid '%s'\n", words > 1 ? word[1] : "");
		return 1;
	}
	if (setgid(0) || setuid(0)) return 1;
	execvp(word[2], word + 2);
	perror(word[2]);
	return 1;
}
