-- Tables of every type of column, with rows of the extremes that are inserted, changed and deleted. It runs in a schema of its own
-- for each form of the log. Where a row is inserted without a column, the column's default is NULL: a minimal row has no defaults.

set session sql_mode = 'NO_ENGINE_SUBSTITUTION,ALLOW_INVALID_DATES', session group_concat_max_len = 1000000;

-- Numbers.

create table integers (
    id int primary key, a tinyint, b tinyint unsigned, c smallint, d smallint unsigned, e mediumint,
    f mediumint unsigned, g int, h int unsigned, i bigint, j bigint unsigned, k bool, l int(8) zerofill, m serial
);
insert into integers values
    (1, -128, 0, -32768, 0, -8388608, 0, -2147483648, 0, -9223372036854775808, 0, true, 0, 1),
    (2, 127, 255, 32767, 65535, 8388607, 16777215, 2147483647, 4294967295, 9223372036854775807, 18446744073709551615, false,
        4294967295, 18446744073709551614),
    (3, -1, 128, -1, 32768, -1, 8388608, -1, 2147483648, -1, 9223372036854775808, null, 7, 3);
insert into integers (id, m) values (4, 4);
update integers set a = 5, j = 6 where id = 3;
update integers set b = null, c = 0 where id = 1;
delete from integers where id = 2;

create table year_full (y year, a tinyint, b tinyint unsigned, c bit(3), d tinyint, z year, e int unsigned, f int);
insert into year_full values (2026, -1, 255, b'101', -2, 1901, 4000000000, -3), (0, 1, 1, b'0', 2, 2155, 0, 3);
update year_full set a = -7 where y = 2026;

create table signs (
    a tinyint unsigned, b tinyint, c float unsigned, d float, e double unsigned, f double, g decimal(5, 2) unsigned,
    h decimal(5, 2), i year, j bigint unsigned, k bigint, l bit(64), m mediumint unsigned, n mediumint, o smallint unsigned
);
insert into signs values
    (200, -56, 1.5, -1.5, 2.5, -2.5, 3.50, -3.50, 1999, 18446744073709551615, -1, b'1', 16777215, -1, 65535);

create table reals (id int primary key, a float, b double, c float(7, 3), d double(20, 5), e real, f float(53));
insert into reals values
    (1, 0, 0, 0, 0, 0, 0), (2, -0e0, -0e0, -0e0, -0e0, -0e0, -0e0),
    (3, 3.402823466e38, 1.7976931348623157e308, 9999.999, 999999999999999.99999, 1e100, 0.1),
    (4, -3.402823466e38, -1.7976931348623157e308, -9999.999, -1, 1e-100, 1e22),
    (5, 1.175494351e-38, 2.2250738585072014e-308, 0.001, 0.00001, 1.5, 123456789.123456789),
    (6, 1e-45, 4.9e-324, 0.1, 0.1, 0.1, 1e21), (7, 16777216, 9007199254740993, 1.1, 1.1, 1.1, 1.1), (8, null, null, null, null,
        null, null);
update reals set a = a / 3, b = b / 3 where id in (3, 7);
delete from reals where id = 5;

create table decimals (
    id int primary key, a decimal(1, 0), b decimal(1, 1), c decimal(9, 9), d decimal(10, 0), e decimal(14, 4), f decimal(18, 9),
    g decimal(30, 30), h decimal(65, 0), i decimal(65, 30), j decimal(19, 1), k decimal(5, 2) unsigned zerofill, l numeric(37, 19)
);
insert into decimals values
    (1, 9, 0.9, 0.999999999, 9999999999, 9999999999.9999, 999999999.999999999, 0.999999999999999999999999999999,
        99999999999999999999999999999999999999999999999999999999999999999,
        99999999999999999999999999999999999.999999999999999999999999999999, 999999999999999999.9, 999.99,
        999999999999999999.9999999999999999999),
    (2, -9, -0.9, -0.999999999, -9999999999, -1234567890.1234, -999999999.999999999, -0.999999999999999999999999999999,
        -99999999999999999999999999999999999999999999999999999999999999999,
        -99999999999999999999999999999999999.999999999999999999999999999999, -999999999999999999.9, 0.01,
        -1.0000000000000000001),
    (3, 0, 0, 0, 0, 0, 0, 0, 0, 0, 0, 0, 0),
    (4, -1, -0.1, -0.000000001, -1, -0.0001, -0.000000001, -0.000000000000000000000000000001, -1,
        -0.000000000000000000000000000001, -0.1, 1, -100000000),
    (5, null, null, null, null, null, null, null, null, null, null, null, null);
update decimals set e = 1234567890.1234, i = -i where id < 4;
delete from decimals where id = 3;

create table bits (id int primary key, a bit, b bit(7), c bit(8), d bit(9), e bit(10), f bit(16), g bit(17), h bit(33),
    i bit(63), j bit(64));
insert into bits values
    (1, b'0', b'0', b'0', b'0', b'0', b'0', b'0', b'0', b'0', b'0'),
    (2, b'1', 127, 255, 511, 1023, 65535, 131071, 8589934591, 9223372036854775807, 18446744073709551615),
    (3, b'1', 64, 128, 256, 512, 32768, 65536, 4294967296, 4611686018427387904, 9223372036854775808),
    (4, null, null, null, null, null, null, null, null, null, null);
update bits set d = 255, j = 1 where id = 3;

-- Dates and times.

create table moments (
    id int primary key, da date, y year, t0 time, t1 time(1), t2 time(2), t3 time(3), t4 time(4), t5 time(5), t6 time(6),
    d0 datetime, d1 datetime(1), d2 datetime(2), d3 datetime(3), d4 datetime(4), d5 datetime(5), d6 datetime(6),
    s0 timestamp null, s1 timestamp(1) null, s2 timestamp(2) null, s3 timestamp(3) null, s4 timestamp(4) null,
    s5 timestamp(5) null, s6 timestamp(6) null
);
insert into moments values
    (1, '1000-01-01', 1901, '00:00:00', '00:00:00', '00:00:00', '00:00:00', '00:00:00', '00:00:00', '00:00:00',
        '1000-01-01', '1000-01-01', '1000-01-01', '1000-01-01', '1000-01-01', '1000-01-01', '1000-01-01',
        '1970-01-01 00:00:01', '1970-01-01 00:00:01', '1970-01-01 00:00:01', '1970-01-01 00:00:01', '1970-01-01 00:00:01',
        '1970-01-01 00:00:01', '1970-01-01 00:00:01'),
    (2, '9999-12-31', 2155, '838:59:59', '838:59:58.9', '838:59:58.99', '838:59:58.999', '838:59:58.9999', '838:59:58.99999',
        '838:59:58.999999', '9999-12-31 23:59:59', '9999-12-31 23:59:59.9', '9999-12-31 23:59:59.99', '9999-12-31 23:59:59.999',
        '9999-12-31 23:59:59.9999', '9999-12-31 23:59:59.99999', '9999-12-31 23:59:59.999999',
        '2038-01-19 03:14:07', '2038-01-19 03:14:07.9', '2038-01-19 03:14:07.99', '2038-01-19 03:14:07.999',
        '2038-01-19 03:14:07.9999', '2038-01-19 03:14:07.99999', '2038-01-19 03:14:07.999999'),
    (3, '0000-00-00', 0, '-838:59:59', '-838:59:58.9', '-838:59:58.99', '-838:59:58.999', '-838:59:58.9999',
        '-838:59:58.99999', '-838:59:58.999999', 0, 0, 0, 0, 0, 0, 0, 0, 0, 0, 0, 0, 0, 0),
    (4, '2000-00-00', 2000, '-00:00:01', '-00:00:00.1', '-00:00:00.01', '-00:00:00.001', '-00:00:00.0001', '-00:00:00.00001',
        '-00:00:00.000001', '2000-00-00', '2000-01-00 01:02:03.4', '0000-00-00 00:00:00.12', '2024-02-29 12:34:56.789',
        '2023-02-31 12:34:56.7891', '2026-11-25 06:30:00.00025', '2026-11-25 06:30:00.000250',
        '2026-11-25 06:30:00', '2026-11-25 06:30:00.1', '2026-11-25 06:30:00.01', '2026-11-25 06:30:00.001',
        '2026-11-25 06:30:00.0001', '2026-11-25 06:30:00.00001', '2026-11-25 06:30:00.000001'),
    (5, '2026-11-25', 2026, '-12:34:56', '-12:34:56.7', '-12:34:56.78', '-12:34:56.789', '-12:34:56.7891', '-12:34:56.78912',
        '-12:34:56.789123', '2026-11-25 23:59:59', '2026-11-25 23:59:59.5', '2026-11-25 23:59:59.55', '2026-11-25 23:59:59.555',
        '2026-11-25 23:59:59.5555', '2026-11-25 23:59:59.55555', '2026-11-25 23:59:59.555555',
        '2001-09-09 01:46:40', '2001-09-09 01:46:40.5', '2001-09-09 01:46:40.55', '2001-09-09 01:46:40.555',
        '2001-09-09 01:46:40.5555', '2001-09-09 01:46:40.55555', '2001-09-09 01:46:40.555555');
insert into moments (id) values (6);
update moments set t6 = '-00:00:00.500000', da = '2024-02-29' where id = 5;
delete from moments where id = 1;

-- Texts and bytes.

create table texts (
    id int primary key, a char(10), b char(1) character set latin1, c char(255), d char(255) character set latin1, e char(0),
    f varchar(10), g varchar(63), h varchar(64), i varchar(255) character set latin1, j varchar(256) character set latin1,
    k varchar(1000) character set ascii, l tinytext, m text, n mediumtext, o longtext, p nchar(5), q char(64), r char(63)
);
insert into texts values
    (1, '', '', '', '', '', '', '', '', '', '', '', '', '', '', '', '', '', ''),
    (2, 'Grüße 東京', 'ß', repeat('東', 255), repeat('é', 255), '', 'äöü😀', repeat('😀', 63), repeat('x', 64), repeat('y', 255),
        repeat('z', 256), repeat('q', 1000), repeat('t', 255), repeat('u', 3000), 'medium', 'long', '  a b', repeat('w', 64),
            repeat('v', 63)),
    (3, 'a  ', ' ', 'b   ', 'c', '', 'd  ', ' e ', '''"\\\n\r\t\0\Z', 'tab\there', 'null\0here', '?', 'a\0', 'b\n', 'c\\',
        'd''', 'x', '', 'y'),
    (4, null, null, null, null, null, null, null, null, null, null, null, null, null, null, null, null, null, null);
insert into texts (id, o) values (5, repeat('0123456789', 2000)), (6, 'after a long one');
update texts set a = 'changed', m = 'changed' where id in (2, 3);
update texts set c = 'only this' where id = 3;
delete from texts where id = 6;

create table charsets (
    id int primary key, a varchar(20) character set ucs2, b varchar(20) character set utf16, c varchar(20) character set utf32,
    d varchar(20) character set utf8mb3, e varchar(20) character set gbk, f varchar(20) character set sjis,
    g varchar(20) character set cp1251, h varchar(20) character set binary,
        i varchar(20) character set utf8mb4 collate utf8mb4_bin,
    j varchar(20) character set big5, k text character set utf16le, l char(5) character set gb18030, m text character set koi8r,
    n enum('я', 'б') character set cp1251, o set('é', 'è') character set latin1, p enum('東', '京') character set utf8mb4,
        q char(5) character set binary
);
insert into charsets values
    (1, 'a東', 'b😀', 'c😀', 'd東', '东京', '東京', 'Привет', x'00ff80', 'i😀', '東京', 'k😀', '东😀', 'Привет', 'я', 'é,è', '京', x'61'),
    (2, '', '', '', '', '', '', '', '', '', '', '', '', '', 'б', '', '東', '');
update charsets set b = 'changed', m = 'Мир' where id = 1;

create table bytes (
    id int primary key, a binary(4), b binary(255), c varbinary(10), d varbinary(300), e tinyblob, f blob, g mediumblob,
        h longblob,
    i binary(1), j binary(0), k blob(1000)
);
insert into bytes values
    (1, '', '', '', '', '', '', '', '', '', '', ''),
    (2, x'00', x'0001', x'000100', x'0001', x'0000', x'00ff', x'ff00', x'27', x'00', '', x'80'),
    (3, x'01020300', repeat(x'ff', 255), repeat(x'ff', 10), repeat(x'00', 300), repeat(x'fe', 255), repeat(x'00ff', 500), 'm',
        'l', 'a', '', 'k'),
    (4, null, null, null, null, null, null, null, null, null, null, null);
update bytes set a = x'00000001', d = x'' where id = 3;
delete from bytes where id = 2;

-- Enums and sets.

set @few = (with recursive n as (select 1 i union all select i + 1 from n where i < 255) select group_concat(quote(concat('m',
    i)) order by i) from n);
set session cte_max_recursion_depth = 70000;
set @many = (with recursive n as (select 1 i union all select i + 1 from n where i < 300) select group_concat(quote(concat('m',
    i)) order by i) from n);
set @set = 'set(''a'', ''b'', ''c'')';
set @sets = (
    with recursive s as (select 1 i union all select i + 1 from s where i < 64)
    select group_concat(concat('s', n.n, ' set(', (select group_concat(quote(concat('x', i)) order by i) from s where i <= n.n),
        ')') order by n.n)
    from (select 1 n union all select 8 union all select 9 union all select 16 union all select 17 union all select 24
        union all select 25 union all select 32 union all select 33 union all select 63 union all select 64) n
);
set @statement = concat('create table members (id int primary key, a enum(''x'', ''y''''z'', ''''), b enum(', @few,
    '), c enum(', @many, '), ', @sets, ')');
prepare made from @statement;
execute made;
insert into members values
    (1, 'x', 'm1', 'm1', 'x1', 'x1', 'x1', 'x1', 'x1', 'x1', 'x1', 'x1', 'x1', 'x1', 'x1'),
    (2, 'y''z', 'm255', 'm300', '', 'x8', 'x9', 'x16', 'x17', 'x24', 'x25', 'x32', 'x33', 'x63', 'x64'),
    (3, '', 'm128', 'm256', 'x1', 'x1,x8', 'x1,x9', 'x2,x15', 'x1,x2,x3', 'x20,x24', 'x1,x25', 'x31,x32', 'x1,x33', 'x1,x62',
        'x1,x2,x64'),
    (4, 'no such', 0, 'm255', '', '', '', '', '', '', '', '', '', '', 18446744073709551615),
    (5, null, null, null, null, null, null, null, null, null, null, null, null, null, null);
update members set c = 'm257', s9 = 'x8,x9' where id in (1, 3);

-- Documents.

create table documents (id int primary key, a json, b json, c int);
insert into documents values
    (1, 'null', 'true', 1), (2, '[]', '{}', 2), (3, '{"a": 1, "b": [1, 2.5, "x", null, true, false]}', '"text"', 3),
    (4, '-1', '18446744073709551615', 4), (5, cast(1.5 as json), cast(cast(123.456 as decimal(10, 3)) as json), 5),
    (6, cast(cast('2026-11-25' as date) as json), cast(cast('-12:34:56.789' as time(3)) as json), 6),
    (7, cast(timestamp '2026-11-25 06:30:00.5' as json), cast(x'00ff' as json), 7), (8, null, null, 8),
    (9, json_object('long', repeat('x', 70000)), json_array(repeat('y', 200), -32768, 32768, -2147483649, 4294967296, 1e300), 9);
update documents set a = json_set(a, '$.a', 2) where id = 3;
update documents set c = 10 where id = 9;
update documents set b = json_array_append(b, '$', 'new') where id = 9;
delete from documents where id = 1;
create table changed_documents (id int primary key, a json, b int);
insert into changed_documents values (1, '{"a": 1, "b": [1, 2, {"c": "d"}], "näme": {"x y": 1}}', 1), (2, '[1, [2, 3], {"k": "v"}]', 2);
update changed_documents set a = json_remove(a, '$.a', '$.b[0]') where id = 1;
update changed_documents set a = json_set(a, '$.new', 'text', '$.b[1].c', 'longer than it was') where id = 1;
update changed_documents set a = json_set(a, '$."näme"."x y"', cast(1.5 as decimal(3, 1)), '$.b[1].e', true) where id = 1;
update changed_documents set a = json_array_insert(a, '$[1]', 'in front', '$[0]', null) where id = 2;
update changed_documents set a = json_replace(a, '$[0]', 'first', '$[3].k', cast('2026-11-25' as date)), b = 3 where id = 2;
update changed_documents set a = json_set(a, '$[9]', 'last') where id = 2;
update changed_documents set a = json_remove(a, '$[1]'), b = b + 1;

-- Geometries and vectors.

create table geometries (
    id int primary key, a geometry, b point, c linestring, d polygon, e multipoint, f multilinestring, g multipolygon,
    h geometrycollection, i point srid 4326, j varchar(5) character set latin1
);
insert into geometries values
    (1, st_geomfromtext('point(1 2)'), st_geomfromtext('point(-1.5 2.5)'), st_geomfromtext('linestring(0 0, 1 1)'),
        st_geomfromtext('polygon((0 0, 1 0, 1 1, 0 0))'), st_geomfromtext('multipoint(0 0, 1 1)'),
        st_geomfromtext('multilinestring((0 0, 1 1), (2 2, 3 3))'), st_geomfromtext('multipolygon(((0 0, 1 0, 1 1, 0 0)))'),
        st_geomfromtext('geometrycollection(point(1 1), linestring(0 0, 1 1))'), st_geomfromtext('point(1 2)', 4326), 'é');
insert into geometries (id, a) values (2, st_geomfromtext('linestring(0 0, 5 5)', 3857)), (3, null);
update geometries set a = st_geomfromtext('point(3 4)'), j = 'b' where id = 1;

create table vectors (
    id int primary key, c varchar(10) character set latin1, v3 vector(3), d varchar(10) character set utf8mb4, v vector,
        vb vector(16383),
    b varbinary(10), bl blob
);
insert into vectors values
    (1, 'é', string_to_vector('[1,-2.5,3e38]'), 'é', string_to_vector('[0]'), string_to_vector('[1.5,2.5]'), x'ff', x'fe'),
    (2, 'two', null, 'zwei', null, string_to_vector(concat('[', repeat('0.5,', 16382), '1]')), null, null),
    (3, null, null, null, null, null, null, null);
update vectors set v3 = string_to_vector('[0,0,0]'), c = 'ü' where id = 2;
delete from vectors where id = 3;

create table mixed (
    id int primary key, a varchar(10) character set latin1, g geometry, b varchar(10) character set utf8mb4, v vector(2),
    c blob, j json, e enum('x', 'y'), p point, d varchar(10) character set binary, f char(3) character set ucs2
);
insert into mixed values
    (1, 'é', st_geomfromtext('point(1 2)'), 'é', string_to_vector('[1,2]'), x'ff00', '{"a": 1}', 'y',
        st_geomfromtext('point(3 4)'), x'ff', 'f'),
    (2, null, null, null, null, null, null, null, null, null, null);
update mixed set b = 'ü', e = 'x', j = json_set(j, '$.a', 'text') where id = 1;

create table same_charsets (id int primary key, a varchar(5) character set latin1, b char(5) character set latin1, g geometry,
    v vector(1), y year, c text character set latin1);
insert into same_charsets values (1, 'é', 'ü', st_geomfromtext('point(1 2)'), string_to_vector('[1]'), 2026, 'ß');

-- Keys, and columns that aren't stated by a statement.

create table no_key (a int, b varchar(10), c blob);
insert into no_key values (1, 'a', 'x'), (1, 'a', 'x'), (2, 'b', null), (null, null, null);
update no_key set b = 'c' where a = 1 limit 1;
update no_key set c = 'y' where a = 2;
delete from no_key where a is null;
create table key_of_two (a int, b varchar(20), c int, d varchar(5), primary key (d, a));
insert into key_of_two values (1, 'one', 10, 'x'), (2, 'two', 20, 'y'), (1, 'three', 30, 'y');
update key_of_two set c = 11 where a = 1;
update key_of_two set a = 5, d = 'z' where c = 20;
create table key_with_prefix (a varchar(50), b varbinary(50), c text, d int, primary key (c(3), a, b(7)));
insert into key_with_prefix values ('a', 'b', 'ccccccc', 1), ('é', x'00ff', '東京タワー', 2);
update key_with_prefix set d = 3 where a = 'a';
delete from key_with_prefix where d = 2;
create table unique_key (a int not null unique, b blob not null, c int);
insert into unique_key values (1, 'one', 1), (2, 'two', 2);
update unique_key set c = 5 where a = 2;
update unique_key set b = 'new' where a = 1;
create table unseen (id int primary key, a int invisible, b int as (c + 1) virtual, c int, d int as (c + 2) stored,
    e varchar(5) invisible);
insert into unseen (id, a, c, e) values (1, 2, 3, 'four'), (2, null, null, null);
update unseen set c = 7 where id = 1;
create table indexed (id int primary key, j json, c varchar(10), key ((cast(j->'$.t' as unsigned array))), key ((upper(c))),
    key ((id * 2)));
insert into indexed values (1, '{"t": [1, 2]}', 'a'), (2, '{"t": 3}', 'b');
update indexed set j = json_set(j, '$.t', cast('[4]' as json)), c = 'c' where id = 1;
set session sql_generate_invisible_primary_key = 1;
create table unseen_key (a int, b varchar(10));
insert into unseen_key values (1, 'a'), (2, 'b'), (1, 'a');
update unseen_key set b = 'c' where a = 2;
delete from unseen_key where a = 1;
set session sql_generate_invisible_primary_key = 0;
create table `näme "of" a\b``tick, 東京` (`ä ö` int, `"` int, `a\b` int, `x``y` varchar(10),
    `it's` int primary key, ` leading` int);
insert into `näme "of" a\b``tick, 東京` values (1, 2, 3, 'four', 5, 6);
update `näme "of" a\b``tick, 東京` set `ä ö` = 7;

-- Many columns, many rows, and rows of more than an event.

set @columns = (with recursive n as (select 1 i union all select i + 1 from n where i < 300) select group_concat(concat('c', i,
    ' int') order by i) from n);
set @statement = concat('create table many_columns (id int primary key, ', @columns, ')');
prepare made from @statement;
execute made;
insert into many_columns (id, c1, c8, c9, c250, c251, c299, c300) values (1, 1, 8, 9, 250, 251, 299, 300), (2, null, null, null,
    null, null, null, null);
update many_columns set c1 = -1, c300 = -300 where id = 1;
create table many_rows (id int primary key, a varchar(100), b int);
insert into many_rows with recursive n as (select 1 i union all select i + 1 from n where i < 600) select i,
    repeat(char(65 + i % 26), i % 90), -i from n;
update many_rows set b = b - 1 where id % 3 = 0;
delete from many_rows where id % 5 = 0;
create table large (id int primary key, a longblob, b mediumtext);
insert into large values (1, repeat('large', 30000), 'x'), (2, repeat('b', 70000), repeat('c', 70000));
update large set b = 'changed' where id = 1;
create table selected as select id, a, c from documents;
create table copied like integers;
insert into copied select * from integers;
replace into copied (id, a, b, c, d, e, f, g, h, i, j, k, l, m) values (1, 9, 9, 9, 9, 9, 9, 9, 9, 9, 9, 9, 9, 9);
insert into copied (id, m) values (1, 9) on duplicate key update a = 77;
create table first (id int primary key, a int);
create table second (id int primary key, b varchar(10));
insert into first values (1, 1), (2, 2);
insert into second values (1, 'one'), (2, 'two');
update first, second set first.a = 10, second.b = 'both' where first.id = second.id;
delete first, second from first join second using (id) where id = 2;
