/* Writes a picture to standard output, as PNG: what the Lua script describes that is named, and below it three bars, which tell how
   long its bytes are as they stand, squeezed by zlib, and squeezed by bzip2. */
#include <bzlib.h>
#include <lauxlib.h>
#include <lua.h>
#include <lualib.h>
#include <png.h>
#include <stdio.h>
#include <stdlib.h>
#include <string.h>
#include <zlib.h>

#define WIDTH 320
#define HEIGHT 200
#define FRAME 3
#define BAR 8
#define COLOURS 64
#define ROWS (FRAME + HEIGHT + 3 * (FRAME + BAR) + FRAME)
#define COLUMNS (FRAME + WIDTH + FRAME)

static unsigned char drawn[HEIGHT][WIDTH], picture[ROWS][COLUMNS], colours[COLOURS][3];

static void stop(const char *fault)
{
    fprintf(stderr, "draw: %s\n", fault);
    exit(1);
}

/* Calls a function of the script with two numbers, and stores so many that it answers. */
static void ask(lua_State *lua, const char *name, int a, int b, unsigned char *answers, int count)
{
    lua_getglobal(lua, name);
    lua_pushinteger(lua, a);
    lua_pushinteger(lua, b);
    if (lua_pcall(lua, 2, count, 0) != LUA_OK)
        stop(lua_tostring(lua, -1));
    for (int i = 0; i < count; i++)
        answers[i] = lua_tointeger(lua, i - count);
    lua_pop(lua, count);
}

/* Draws the bar with this number, which has the length of so many bytes. */
static void bar(int number, size_t bytes)
{
    int top = FRAME + HEIGHT + FRAME + number * (FRAME + BAR);
    for (int row = top; row < top + BAR; row++)
        memset(picture[row] + FRAME, COLOURS / 2 + 8 * number, WIDTH * bytes / sizeof drawn);
}

int main(int count, char **words)
{
    static char squeezed[2 * sizeof drawn];
    uLongf by_zlib = sizeof squeezed;
    unsigned by_bzip2 = sizeof squeezed;
    png_image image = {.version = PNG_IMAGE_VERSION, .width = COLUMNS, .height = ROWS};
    lua_State *lua = luaL_newstate();

    luaL_openlibs(lua);
    if (count != 2 || luaL_dofile(lua, words[1]) != LUA_OK)
        stop(count == 2 ? lua_tostring(lua, -1) : "one word is needed, a Lua script");
    for (int i = 0; i < COLOURS; i++)
        ask(lua, "colour", i, COLOURS, colours[i], 3);
    for (int y = 0; y < HEIGHT; y++)
        for (int x = 0; x < WIDTH; x++)
            ask(lua, "point", x - WIDTH / 2, y - HEIGHT / 2, &drawn[y][x], 1);
    for (int y = 0; y < HEIGHT; y++)
        memcpy(picture[FRAME + y] + FRAME, drawn[y], WIDTH);

    compress2((Bytef *)squeezed, &by_zlib, drawn[0], sizeof drawn, 9);
    BZ2_bzBuffToBuffCompress(squeezed, &by_bzip2, (char *)drawn, sizeof drawn, 9, 0, 0);
    bar(0, sizeof drawn);
    bar(1, by_zlib);
    bar(2, by_bzip2);

    image.format = PNG_FORMAT_RGB_COLORMAP;
    image.colormap_entries = COLOURS;
    if (!png_image_write_to_stdio(&image, stdout, 0, picture, 0, colours))
        stop(image.message);
    return 0;
}
