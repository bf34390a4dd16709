// Tries every filling of sketches of examples/ on every input, and prints those that meet the sketch: each is written here
// again, apart from the program and from bench/reference. `mean` is tried on a sample of its inputs.
//
//     cc -O2 -w bench/fillings.c -o /tmp/fillings && /tmp/fillings
#include <stdio.h>
#include <string.h>
typedef unsigned u;

static int pc(u x) { return __builtin_popcount(x); }

int main() {

    // counted_ones
    {
        int best = 99, n = 0;
        u B[3];
        for (u a = 0; a < 256; a++)
            for (u b = 0; b < 256; b++) {
                if (pc(a) + pc(b) > best) continue;
                u y2[256];
                for (u x = 0; x < 256; x++) {
                    u y = ((x & a) + ((x >> 1) & a)) & 255;
                    y2[x] = ((y & b) + ((y >> 2) & b)) & 255;
                }
                for (u c = 0; c < 256; c++) {
                    int k = pc(a) + pc(b) + pc(c);
                    if (k > best) continue;
                    int ok = 1;
                    for (u x = 0; x < 256 && ok; x++) {
                        u y = y2[x];
                        ok = (((y & c) + ((y >> 4) & c)) & 255) == pc(x);
                    }
                    if (ok) {
                        if (k < best) {
                            best = k;
                            n = 0;
                        }
                        n++;
                        B[0] = a;
                        B[1] = b;
                        B[2] = c;
                    }
                }
            }
        printf("counted_ones value %d answers %d %x %x %x\n", best, n, B[0], B[1], B[2]);
    }
    // interleaved
    {
        int n = 0;
        for (u a = 0; a < 32; a++)
            for (u b = 0; b < 32; b++)
                for (u c = 0; c < 32; c++)
                    for (u d = 0; d < 32; d++) {
#define SP(x)                                                                                                                              \
    ({                                                                                                                                     \
        u y = (x);                                                                                                                         \
        y = (y | (y << a)) & 0x0f0f;                                                                                                       \
        y = (y | (y << b)) & 0x3333;                                                                                                       \
        y = (y | (y << c)) & 0x5555;                                                                                                       \
        y;                                                                                                                                 \
    })
                        int ok = 1;
                        for (u e = 0; e < 256 && ok; e++) {
                            u w = 0;
                            for (int i = 0; i < 8; i++) w |= ((e >> i) & 1) << (2 * i);
                            u y = SP(e);
                            u z = (SP(e) << d) & 0xffff;
                            ok = (y == w) && (z == ((w << 1) & 0xffff));
                        }
                        // exact: y|z for independent inputs: spread(even)|spread(odd)<<d, with 0 the other
                        if (ok) {
                            n++;
                            printf("interleaved %u %u %u %u\n", a, b, c, d);
                        }
                    }
        printf("interleaved answers %d\n", n);
    }
    // one_changed_bit
    {
        int n = 0;
        for (u k = 0; k < 32; k++)
            for (u a = 0; a < 2; a++)
                for (u b = 0; b < 4; b++)
                    for (u c = 0; c < 8; c++) {
                        int ok = 1;
                        for (u x = 0; x < 256 && ok; x++) {
#define CODE(x) ((x) ^ (k < 32 ? ((x) >> k) : 0))
                            u g = CODE(x), h = CODE((x + 1) & 255);
                            ok = pc(g ^ h) == 1;
                            u y = g ^ (g >> a);
                            y ^= y >> b;
                            y ^= y >> c;
                            ok = ok && y == x;
                        }
                        if (ok) {
                            n++;
                            printf("one_changed_bit %u %u %u %u\n", k, a, b, c);
                        }
                    }
        printf("one_changed answers %d\n", n);
    }
    // next_with_as_many
    {
        int n = 0;
        for (u c = 0; c < 64; c++)
            for (u d = 0; d < 32; d++) {
                int ok = 1;
                for (u x = 0; x < 64 && ok; x++)
                    for (u o = x + 1; o < 64 && ok; o++) {
                        if (pc(o) != pc(x)) continue;
                        u low = x & ((~x + c) & 63);
                        if (!low) {
                            ok = 0;
                            break;
                        } /* while(!lowest[place]) runs off the array: fails; unroll bound 8 */
                        u p = 0;
                        while (!(low >> p & 1)) p++;
                        u s = (x + low) & 63;
                        u sh = p + d;
                        u y = s | (sh > 31 ? 0 : ((x ^ s) >> sh));
                        ok = pc(y) == pc(x) && y > x && y <= o;
                    }
                if (ok) {
                    n++;
                    printf("next_with %x %u\n", c, d);
                }
            }
        printf("next_with answers %d\n", n);
    }
    // logarithm
    {
        int n = 0;
        for (u a = 0; a < 16; a++)
            for (u b = 0; b < 16; b++)
                for (u c = 0; c < 16; c++)
                    for (u d = 0; d < 16; d++) {
                        int ok = 1;
                        for (u x = 1; x < 65536 && ok; x = (x < 300 ? x + 1 : x + 97)) {
                            u r = x, p = 0, q[4] = {a, b, c, d};
                            for (int i = 0; i < 4; i++)
                                if (r >> q[i]) {
                                    r >>= q[i];
                                    p += q[i];
                                }
                            ok = p < 16 && ((x >> p) & 1) && (x >> p) == 1;
                        }
                        if (ok)
                            for (u x = 1; x < 65536 && ok; x++) {
                                u r = x, p = 0, q[4] = {a, b, c, d};
                                for (int i = 0; i < 4; i++)
                                    if (r >> q[i]) {
                                        r >>= q[i];
                                        p += q[i];
                                    }
                                ok = p < 16 && (x >> p) == 1;
                            }
                        if (ok) {
                            n++;
                            printf("logarithm %u %u %u %u\n", a, b, c, d);
                        }
                    }
        printf("logarithm answers %d\n", n);
    }
    // saturating
    {
        int n = 0;
        for (u p = 0; p < 2; p++)
            for (u q = 0; q < 2; q++)
                for (u r = 0; r < 2; r++)
                    for (u m = 0; m < 256; m++) {
                        int ok = 1;
                        for (u x = 0; x < 256 && ok; x++)
                            for (u y = 0; y < 256 && ok; y++) {
                                u s = (x + y) & 255, a = x >> 7, b = y >> 7, c = s >> 7;
                                u k = (p ? a ^ b : a & b) | ((q ? a ^ b : a & b) & (r ? !c : c));
                                u z = k ? m : s;
                                ok = z == (x + y > 255 ? 255 : x + y);
                            }
                        if (ok) {
                            n++;
                            printf("saturating %u %u %u %x\n", p, q, r, m);
                        }
                    }
        printf("saturating answers %d\n", n);
    }
    {
        int n = 0;
        for (u c = 0; c < 256; c++) {
            int ok = 1;
            for (u x = 0; x < 256 && ok; x++) ok = x * c / 2048 == x / 10;
            if (ok) {
                n++;
                printf("tenth %u\n", c);
            }
        }
        printf("tenth answers %d\n", n);
    }
    {
        int n = 0;
        for (u a = 1; a < 32; a++)
            for (u b = 0; b < 32; b++)
                for (u c = 0; c < 32; c++) {
                    int ok = 1;
                    for (u y = 0; y < 2048 && ok; y++) {
                        int w = (y % 100 == 0) ? (y / 100 % 4 == 0) : (y % 100 % 4 == 0);
                        int v;
                        if (y % a != 0)
                            v = 0;
                        else {
                            if (b == 0) {
                                ok = 0;
                                break;
                            }
                            if (y % b != 0)
                                v = 1;
                            else {
                                if (c == 0) {
                                    ok = 0;
                                    break;
                                }
                                v = y % c == 0;
                            }
                        }
                        ok = v == w;
                    }
                    if (ok) {
                        n++;
                        printf("leap %u %u %u\n", a, b, c);
                    }
                }
        printf("leap answers %d\n", n);
    }
    {
        int n = 0;
        for (int w1 = 0; w1 < 2; w1++)
            for (int w2 = 0; w2 < 2; w2++)
                for (int k = 0; k < 32; k++) {
                    int ok = 1;
                    for (u x = 0; x < 65536 && ok; x += (x < 40 ? 1 : x > 65500 ? 1 : 331))
                        for (u y = 0; y < 65536 && ok; y += (y < 40 ? 1 : y > 65500 ? 1 : 331)) {
                            u p = w1 ? x ^ y : x & y, q = w2 ? x ^ y : x & y;
                            u v = (p + (k > 16 ? 0 : q >> k)) & 65535;
                            ok = v == (x + y) / 2;
                        }
                    if (ok) {
                        n++;
                        printf("mean %d %d %d\n", w1, w2, k);
                    }
                }
        printf("mean answers %d (sampled inputs)\n", n);
    }
    {
        int n = 0;
        for (u a = 0; a < 2; a++)
            for (u b = 0; b < 4; b++)
                for (u c = 0; c < 8; c++)
                    for (u d = 0; d < 16; d++) {
                        int ok = 1;
                        for (u x = 0; x < 65536 && ok; x++) {
                            u y = x ^ (x >> a);
                            y ^= y >> b;
                            y ^= y >> c;
                            y ^= y >> d;
                            ok = (y & 1) == (pc(x) & 1);
                        }
                        if (ok) {
                            n++;
                            printf("parity %u %u %u %u\n", a, b, c, d);
                        }
                    }
        printf("parity answers %d\n", n);
    }
    {
        int n = 0;
        for (int a = 0; a < 2; a++)
            for (int b = 0; b < 2; b++)
                for (int c = 0; c < 2; c++)
                    for (int d = 0; d < 2; d++)
                        for (int e = 0; e < 2; e++) {
                            int ok = 1;
                            for (u x = 0; x < 1024 && ok; x++) {
                                int A[5];
                                int s = 1;
                                for (int i = 0; i < 5; i++) {
                                    A[i] = x >> (2 * i) & 3;
                                    if (i && A[i] < A[i - 1]) s = 0;
                                }
                                if (!s) continue;
                                for (int v = 0; v < 4 && ok; v++) {
                                    int has = 0;
                                    for (int i = 0; i < 5; i++) has |= A[i] == v;
                                    int lo = 0, hi = a ? 5 : 4, f = 0, t = 0, bad = 0;
                                    for (;;) {
                                        if (!(b ? lo <= hi : lo < hi)) break;
                                        if (t++ >= 8) {
                                            bad = 1;
                                            break;
                                        }
                                        int m = (lo + hi) / 2;
                                        if (m < 0 || m > 4) {
                                            bad = 1;
                                            break;
                                        }
                                        if (A[m] == v) {
                                            f = 1;
                                            break;
                                        }
                                        if (c ? A[m] > v : A[m] < v)
                                            lo = d ? m + 1 : m;
                                        else
                                            hi = e ? m - 1 : m;
                                    }
                                    ok = !bad && f == has;
                                }
                            }
                            if (ok) {
                                n++;
                                printf("halving %d %d %d %d %d\n", a, b, c, d, e);
                            }
                        }
        printf("halving answers %d\n", n);
    }
    {
        int n = 0;
        for (int a = 0; a < 3; a++)
            for (int b = 0; b < 2; b++)
                for (int c = 0; c < 2; c++)
                    for (int p = 0; p < 3; p++)
                        for (int q = 0; q < 3; q++) {
                            int ok = 1;
                            for (u x = 0; x < 1024 && ok; x++) {
                                int A[5], cnt[4] = {0};
                                for (int i = 0; i < 5; i++) {
                                    A[i] = x >> (2 * i) & 3;
                                    cnt[A[i]]++;
                                }
                                int L = 0, l = 0;
                                for (int i = 0; i < 5; i++) {
                                    int z = a == 0 ? l : a == 1 ? L : i;
                                    if (z == 0) L = b ? L : A[i];
                                    int k = c == 0 ? A[i] == L : A[i] == l;
                                    int h = k ? p : q;
                                    l = h == 0 ? l : h == 1 ? l + 1 : l - 1;
                                }
                                for (int v = 0; v < 4; v++)
                                    if (cnt[v] >= 3 && L != v) ok = 0;
                            }
                            if (ok) {
                                n++;
                                printf("majority %d %d %d %d %d\n", a, b, c, p, q);
                            }
                        }
        printf("majority answers %d\n", n);
    }
    {
        int n = 0;
        for (int m = 0; m < 4; m++)
            for (int p = 0; p < 3; p++)
                for (int q = 0; q < 3; q++)
                    for (int d = 0; d < 4; d++) {
                        int ok = 1;
                        for (int x0 = 0; x0 < 8 && ok; x0++)
                            for (int n0 = 0; n0 < 8 && ok; n0++) {
                                short w = 1;
                                for (int i = 0; i < n0; i++) w *= x0;
                                short P = 1, x = x0;
                                int k = n0, t = 0;
                                while (k > 0) {
                                    if (t++ >= 8) {
                                        ok = 0;
                                        break;
                                    }
                                    if (m == 0) {
                                        ok = 0;
                                        break;
                                    }
                                    if (k % m == 1) P = p == 0 ? P * x : p == 1 ? P * P : x * x;
                                    x = q == 0 ? P * x : q == 1 ? P * P : x * x;
                                    if (d == 0) {
                                        ok = 0;
                                        break;
                                    }
                                    k /= d;
                                }
                                ok = ok && P == w;
                            }
                        if (ok) {
                            n++;
                            printf("power %d %d %d %d\n", m, p, q, d);
                        }
                    }
        printf("power answers %d\n", n);
    }
    return 0;
}
