// A trap: the third divisor is 0, so the Map on line 15 ends the run at element 2.
#include <iostream>
#include <skepu>

int quotient(int a, int b) { return a / b; }

int main() {
    auto divide = skepu::Map(quotient);
    skepu::Vector<int> dividends(4, 100);
    skepu::Vector<int> divisors(4, 7);
    divisors(2) = 0;
    skepu::Vector<int> results(4);
    std::cout << "the first quotient is " << quotient(dividends(0), divisors(0)) << std::endl;

    divide(results, dividends, divisors);

    std::cout << "this is not printed" << std::endl;
    return 0;
}
