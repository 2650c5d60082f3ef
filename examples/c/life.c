/* The game of life. One step is done inside of the border. The next one looks at all cells, and of those around a cell at the border
   some aren't there. */
#include <stdio.h>

enum { width = 5, height = 5 };

char field[height][width] = {".....", "..#..", "..#..", "..#..", "....."};
char next[height][width];

int neighbours(int y, int x)
{
    int count = 0;
    int dy;
    int dx;
    for (dy = -1; dy <= 1; dy++)
        for (dx = -1; dx <= 1; dx++)
            if (dy != 0 || dx != 0)
                count += field[y + dy][x + dx] == '#';
    return count;
}

/* one step of the cells that are so far from the border */
void step(int border)
{
    int y;
    int x;
    for (y = border; y < height - border; y++)
        for (x = border; x < width - border; x++) {
            int count = neighbours(y, x);
            next[y][x] = count == 3 || (count == 2 && field[y][x] == '#') ? '#' : '.';
        }
    for (y = border; y < height - border; y++)
        for (x = border; x < width - border; x++)
            field[y][x] = next[y][x];
}

void show(void)
{
    int y;
    int x;
    for (y = 1; y < height - 1; y++) {
        for (x = 1; x < width - 1; x++)
            putchar(field[y][x]);
        if (y < height - 2)
            putchar('/');
    }
}

int main(void)
{
    int border;
    for (border = 1; border >= 0; border--) {
        show();
        step(border);
        putchar(' ');
    }
    show();
    return 0;
}
