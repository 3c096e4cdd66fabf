// Each of these calls is an error of types.
import { description, format, parse, parseMany } from 'pelzaune';

parse(5); // wrong: a number
parse('2021', 'rfc9557'); // wrong: no such format
parse('2021', { text: '%Y' }); // wrong: no description
parse(); // wrong: no text
description(new Uint8Array(1)); // wrong: bytes
parseMany(5); // wrong: a number
parseMany([5]); // wrong: numbers
format({ year: 2021 }); // wrong: no month
format(new Date(), '%Y'); // wrong: no description
format(new Date(), { text: '%Y' }); // wrong: no description
const text: string = parse('2021'); // wrong: a moment
