// C++: objects that are made before main and end behind it, functions that a class leaves to others, templates, and
// memory.
#include <stdio.h>
#include <string.h>

struct Told {
    const char *name;
    explicit Told(const char *given) : name(given) { printf("%s begins\n", name); }
    ~Told() { printf("%s ends\n", name); }
};

static Told first("the first");
static Told second("the second");

struct Shape {
    virtual ~Shape() {}
    virtual int area() const = 0;
    virtual const char *name() const { return "shape"; }
};

struct Square : Shape {
    int side;
    explicit Square(int given) : side(given) {}
    int area() const override { return side * side; }
    const char *name() const override { return "square"; }
};

struct Rectangle : Shape {
    int width, height;
    Rectangle(int w, int h) : width(w), height(h) {}
    int area() const override { return width * height; }
};

template <typename T> class List {
    T *items = nullptr;
    unsigned count = 0, room = 0;

public:
    ~List() { delete[] items; }

    void add(T item)
    {
        if (count == room) {
            room = 2 * room + 1;
            T *more = new T[room];
            for (unsigned k = 0; k < count; k++)
                more[k] = items[k];
            delete[] items;
            items = more;
        }
        items[count++] = item;
    }

    T *begin() { return items; }
    T *end() { return items + count; }
};

static int counted()
{
    static Told once("the one in a function");
    static int count;

    return ++count;
}

int main()
{
    List<Shape *> shapes;

    for (int k = 1; k < 5; k++)
        shapes.add(k % 2 ? static_cast<Shape *>(new Square(k)) : new Rectangle(k, k + 1));
    for (Shape *shape : shapes) {
        printf("%s %d\n", shape->name(), shape->area());
        delete shape;
    }
    counted();
    auto twice = [](int n) { return 2 * n + counted(); };
    printf("%d\n", twice(20));
}
