/* Counts words by MapReduce-MPI: each task has the same ones. */
#include <cstring>
#include <mapreduce.h>
#include <keyvalue.h>
#include <mpi.h>

using namespace MAPREDUCE_NS;

static void tell(int task, KeyValue *found, void *) {
    const char *words[] = {"send", "receive", "wait", "send", "probe"};
    for (const char *word : words) found->add(const_cast<char *>(word), strlen(word) + 1, nullptr, 0);
}

static void count(char *key, int size, char *, int values, int *, KeyValue *found, void *) {
    found->add(key, size, reinterpret_cast<char *>(&values), sizeof values);
}

int main(int argc, char **argv) {
    MPI_Init(&argc, &argv);
    {
        MapReduce words(MPI_COMM_WORLD);
        words.map(6, tell, nullptr);
        words.collate(nullptr);
        words.reduce(count, nullptr);
        words.gather(1);
    }
    MPI_Finalize();
}
