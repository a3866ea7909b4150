// A first program: a function of one number, and a Map that calls it for each element of a vector. It prints 42.
#include <iostream>
#include <skepu>

// What is computed for one element.
int twice(int number) {
    return number * 2;
}

int main() {
    // An instance of the skeleton Map: a call of it calls `twice` for each element.
    auto double_all = skepu::Map(twice);

    // Three elements, each of them 21, and room for three results.
    skepu::Vector<int> numbers(3, 21);
    skepu::Vector<int> results(3);

    // The result stands first, and behind it what is read.
    double_all(results, numbers);

    // Elements are counted from 0, so this is the last one.
    std::cout << results(2) << std::endl;
    return 0;
}
