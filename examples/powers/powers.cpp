// Numbers of 64 bits in a Map with uniform arguments: powers modulo 1000000007.
#include <iostream>
#include <skepu>

long power(long base, int exponent, long modulus) {
    long result = 1;
    long square = base % modulus;
    int left = exponent;
    for (int turn = 0; turn < 31; turn++) {
        if (left % 2 == 1) { result = result * square % modulus; }
        square = square * square % modulus;
        left /= 2;
    }
    return result;
}

int main() {
    auto powers = skepu::Map<1>(power);
    skepu::Vector<long> bases(8);
    for (int i = 0; i < bases.size(); i++) {
        bases(i) = i + 2;
    }
    skepu::Vector<long> results(8);
    powers(results, bases, 1000000, 1000000007);
    for (int i = 0; i < results.size(); i++) {
        std::cout << bases(i) << " to the power 1000000: " << results(i) << std::endl;
    }
    return 0;
}
