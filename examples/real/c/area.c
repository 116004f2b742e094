/* In the archive and the shared library; asks for scale. */
extern double scale(double value);

char scratch[64];

double area(double width, double height) { return scale(width * height); }
