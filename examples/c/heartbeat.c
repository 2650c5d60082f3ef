/* A server gives back what it was sent, as many bytes as it is asked for. The second client asks for more than it has sent, and
   behind that lies the key. */
#include <stdio.h>

struct session {
    char payload[16];
    char key[16];
};

struct request {
    char *sent;
    int wanted;
};

struct session session = {"", "correct horse"};
struct request requests[] = {{"bird", 4}, {"hat", 31}};
char answer[64];

void receive(char *sent)
{
    int i;
    for (i = 0; sent[i] != 0 && i < 16; i++)
        session.payload[i] = sent[i];
}

void serve(struct request *request)
{
    int i;
    receive(request->sent);
    for (i = 0; i < request->wanted; i++)
        answer[i] = session.payload[i];
    for (i = 0; i < request->wanted; i++)
        putchar(answer[i]);
    putchar('\n');
}

int main(void)
{
    int i;
    for (i = 0; i < 2; i++)
        serve(&requests[i]);
    return 0;
}
