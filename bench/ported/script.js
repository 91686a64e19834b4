// functions as values, arrays, sort
print([3, 1, 2, 10].sort().join(' '), [3, 1, 2, 10].sort(function (a, b) { return a - b; }).join(' '));
function square(x) { return x * x; }
function sumOf(a, b) { return a + b; }
print([1, 2, 3, 4].map(square).filter(function (x) { return x > 1; }).reduce(sumOf));
print([5, 6, 7].slice(1).concat([8]).reverse(), [1, 2, 3].indexOf(3), Array.isArray([]), [[1, 2], [3]].toString());

// closures, prototypes, errors
function counter() {
    var count = 0;
    return function () { return ++count; };
}
var first = counter(), second = counter();
first();
print(first(), second(), first());
function Point(x, y) { this.x = x; this.y = y; }
Point.prototype.toString = function () { return '(' + this.x + ', ' + this.y + ')'; };
print(new Point(1, 2.5), new Point(1) instanceof Point, Object.keys(new Point(1, 2)));
try { null.x; } catch (e) { print(e.name); }
try { throw new RangeError('far'); } catch (e) { print(e.name, e.message); } finally { print('finally'); }
var box = { get twice() { return this.x * 2; }, x: 21 };
print(box.twice, typeof box, typeof print, typeof undefined, delete box.x, box.x);

// strings and expressions
print('The Turn of a Page'.replace(/([A-Z])\w+/g, '<$1>'), 'a,b,,c'.split(',').length, /(\d+)-(\d+)/.exec('12-34')[2]);
print('kernel'.charCodeAt(1), 'kernel'.substring(1, 4), ' page '.trim().toUpperCase(), 'environment'.lastIndexOf('n'));
print('x'.concat(1, null), '\u20ac'.length, escapeAll('a b&c'), 'abc' < 'abd', '10' < '9', 10 < 9);
function escapeAll(text) { return encodeURIComponent(text) + decodeURIComponent('%41'); }

// numbers
print(0.1 + 0.2, 1 / 3, 1e21, 123456789012, 5e-324, 1.7976931348623157e308, -0, 1 / 0, 0 / 0, 1e-7);
print(5 % 3, -5.5 % 2, 7 / 2 | 0, 1 << 31, -1 >>> 0, ~5, 0xff, 2147483648 | 0, 1e10 | 0);
print(Math.sqrt(2), Math.pow(2, 0.5), Math.floor(-1.5), Math.round(2.5), Math.PI, Math.max(1, 3, 2), Math.abs(-7.25));
print(Math.sin(1), Math.cos(1), Math.tan(1), Math.exp(1), Math.log(10), Math.atan2(1, 2));
print((255).toString(16), (3.14159).toFixed(2), (1234.5678).toExponential(3), (0.000001234).toPrecision(2));
print(parseInt('7f', 16), parseFloat('2.5e3x'), Number('0x10'), Number(''), Number('1.5e'), isNaN('a'), +'12');

// JSON
print(JSON.stringify({ a: [1, 2, { b: 'c' }], d: null, e: 1.5, f: true }), JSON.parse('{"x": [1, 2.5]}').x[1]);
print(JSON.stringify('a"b\n'), JSON.stringify([undefined, NaN]), JSON.stringify({ deep: [[[]]] }));

// sums
function fibonacci(n) { return n < 2 ? n : fibonacci(n - 1) + fibonacci(n - 2); }
print(fibonacci(9));
var table = {}, sum = 0;
for (var k = 0; k < 60; k++) table['k' + k] = k * k;
for (var key in table) sum += table[key];
print(sum);
for (k = 1, sum = 0; k <= 300; k++) sum += 1 / k;
print(sum);
var sieve = [], primes = 0;
for (k = 2; k < 300; k++) {
    if (sieve[k]) continue;
    primes++;
    for (var multiple = k * k; multiple < 300; multiple += k) sieve[multiple] = true;
}
print(primes);

// memory that is given back
var list = null;
for (k = 1; k <= 300; k++) list = k % 100 === 0 ? { next: null, text: '' + k } : { next: list, text: '' + k };
print(list.text);
