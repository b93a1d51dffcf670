/* What compiled code calls by name on WebAssembly, where no compiler's library is linked. Nothing proves it.
 *
 * None may multiply or shift 128 bits by a variable itself, since the compiler would make of that a call of the same function. */
typedef unsigned long long u64;
typedef unsigned __int128 u128;

u128 __multi3(u128 a, u128 b);
u128 __ashlti3(u128 a, int n);
u128 __lshrti3(u128 a, int n);

static u128 of_halves(u64 high, u64 low)
{
    return (u128)high << 64 | low;
}

/* The product of two numbers of 64 bits, from products of their halves. A product of two halves and two further halves fit 64 bits. */
static u128 product(u64 a, u64 b)
{
    const u64 half = 0xFFFFFFFF;
    u64 low = (a & half) * (b & half);
    u64 middle = (a >> 32) * (b & half) + (low >> 32);
    u64 other = (a & half) * (b >> 32) + (middle & half);
    u64 high = (a >> 32) * (b >> 32) + (middle >> 32) + (other >> 32);
    return of_halves(high, other << 32 | (low & half));
}

/* The low 128 bits of the product, for either sign. */
u128 __multi3(u128 a, u128 b)
{
    u64 crossed = (u64)a * (u64)(b >> 64) + (u64)(a >> 64) * (u64)b;
    return product((u64)a, (u64)b) + of_halves(crossed, 0);
}

/* The shifts, by 0 to 127. A shift by 1 and then by 63 - n is one by 64 - n, also where n is 0. */
u128 __ashlti3(u128 a, int n)
{
    u64 high = (u64)(a >> 64), low = (u64)a;
    if (n >= 64)
        return of_halves(low << (n - 64), 0);
    return of_halves(high << n | low >> 1 >> (63 - n), low << n);
}

u128 __lshrti3(u128 a, int n)
{
    u64 high = (u64)(a >> 64), low = (u64)a;
    if (n >= 64)
        return high >> (n - 64);
    return of_halves(high >> n, low >> n | high << 1 << (63 - n));
}
