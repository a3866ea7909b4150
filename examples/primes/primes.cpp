// Loops, branches and a function that main calls: the primes below 50.
#include <iostream>
#include <skepu>

int is_prime(int n) {
    if (n < 2) { return 0; }
    for (int divisor = 2; divisor * divisor <= n; divisor++) {
        if (n % divisor == 0) { return 0; }
    }
    return 1;
}

int main() {
    int count = 0;
    for (int n = 0; n < 50; n++) {
        if (is_prime(n)) {
            std::cout << n << " ";
            count++;
        }
    }
    std::cout << "\n" << count << " primes" << std::endl;
    return 0;
}
