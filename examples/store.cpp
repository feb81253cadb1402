// Two passes of one store: an old version stays readable, and so does its proof.
//
//     make -C ../bindings
//     c++ -std=c++17 -I../include -I../bindings/cpp store.cpp ../bindings/out/libmst_store.a
//
// It needs the library: that of a release (there is none yet), or the kit, by which make makes it.
#include "mst_store.hpp"
#include <iostream>

int main() {
    auto passes = mst::open({1000, 2}); // 1,000 rows, two passes
    passes[0].put("apple", "30");
    {
        auto then = passes[1].pin();
        passes[0].put("apple", "35");
        std::cout << "the pinned value: " << *then.get("apple") << "\n";
        std::cout << "its proof: " << then.prove("apple").size() << " bytes\n";
    }
    std::cout << "the value now: " << *passes[1].get("apple") << "\n";
}
