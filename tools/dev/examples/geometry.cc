// The program of the manual's example of C++ names.
namespace geometry {

struct Point {
    double x, y;
};

double area(const Point *corners, int count) {
    double sum = 0;
    for (int i = 0; i < count; i++) {
        const Point &here = corners[i], &next = corners[(i + 1) % count];
        sum += here.x * next.y - next.x * here.y;
    }
    return sum / 2;
}

bool contains(const Point *corners, int count, Point point) {
    bool inside = false;
    for (int i = 0; i < count; i++) {
        const Point &here = corners[i], &next = corners[(i + 1) % count];
        if ((here.y > point.y) != (next.y > point.y) &&
            point.x < (next.x - here.x) * (point.y - here.y) / (next.y - here.y) + here.x)
            inside = !inside;
    }
    return inside;
}

}  // namespace geometry

int main(int count, char **) {
    geometry::Point corners[3] = {{0, 0}, {4.0 * count, 0}, {0, 3}};
    return geometry::contains(corners, 3, {1, 1}) + static_cast<int>(geometry::area(corners, 3));
}
