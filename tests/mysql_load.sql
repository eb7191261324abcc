-- A load of one session: statements, rows and transactions of the kinds that MySQL logs without replication. Rows of tables are
-- those of mysql_tables.sql.

create database shop;
use shop;
create table item (
    id int primary key auto_increment, name varchar(40), price decimal(10, 2), note mediumtext, moment timestamp null, key (name)
);
create table word (id int primary key, text varchar(100)) engine = MyISAM;

-- Statements.

set session binlog_format = 'STATEMENT';
insert into item (name, price) values ('apple', 1.20), ('pear', 0.80), ('plum', 2.00);
insert into item (name) values ('one more');
insert into item (name, price) select concat('copy of ', name), price from item order by id;
set insert_id = 4000000000;
create table numbers (id bigint unsigned primary key auto_increment, a double, b varbinary(100));
create table great_numbers (id bigint unsigned primary key auto_increment);
set insert_id = 18446744073709551000;
insert into great_numbers values (null);
-- mysqlbinlog prints such a number below zero.
drop table great_numbers;
set last_insert_id = 5;
insert into numbers (id, a) values (7, last_insert_id());
insert into numbers (id, a) values (8, rand()), (9, rand(3));
set @whole = -5, @large = cast(18446744073709551615 as unsigned), @real = 1.5e300, @text = 'Grüße, 東京 \' " \\',
    @bytes = x'00ff27', @decimal = -1234567890.0987654321, @nothing = null, @latin1 = _latin1 x'e9', @empty = '',
        @binary = cast('b' as binary),
    @`a name` = 'with a space', @time = time '12:34:56', @document = json_object('a', 1);
insert into item (name, note) values (@text, @text), (@latin1, @empty), (@nothing, @binary), (@`a name`, @document), (@time,
    @decimal);
insert into numbers (id, a, b) values (10, @whole, @bytes), (11, @real, @text), (12, @decimal, @nothing), (13, @large, @empty);
update item set price = price + 1 where id < 3;
delete from item where name = 'pear';
set timestamp = 1234567890.123456;
insert into item (name, moment) values ('at another time', now());
set timestamp = default;
set session time_zone = '+02:00', session lc_time_names = 'de_DE',
    session sql_mode = 'ANSI_QUOTES,PIPES_AS_CONCAT,NO_BACKSLASH_ESCAPES';
insert into item (name, moment) values (date_format('2026-11-25', '%W %M'), '2026-11-25 06:30:00');
set session sql_mode = default, session time_zone = default, session lc_time_names = default;
set session auto_increment_increment = 10, session auto_increment_offset = 3;
insert into item (name) values ('at an offset'), ('and another');
set session auto_increment_increment = default, session auto_increment_offset = default;
set session foreign_key_checks = 0, session unique_checks = 0, session sql_auto_is_null = 1;
insert into item (name) values ('without checks');
set session foreign_key_checks = 1, session unique_checks = 1, session sql_auto_is_null = 0;
set names latin1;
insert into item (name) values ('in latin1');
set names utf8mb4 collate utf8mb4_bin;
insert into item (name) values ('in utf8mb4');
set names utf8mb4;
set session collation_database = latin1_swedish_ci;
insert into item (name) values ('under another collation');
set session collation_database = default;
create database other character set latin1 collate latin1_german2_ci;
create table other.thing (id int primary key, item int);
insert into other.thing select id, id from item where id < 5;
update item, other.thing set item.note = 'joined', thing.item = 0 where item.id = thing.id;
use other;
insert into thing values (100, 1);
use shop;
create table child (id int primary key, item int, foreign key (item) references item (id) on delete cascade);
insert into child values (1, 1), (2, 3);
delete from item where id = 1;
begin;
insert into item (name) values ('kept');
savepoint here;
insert into item (name) values ('gone');
rollback to here;
insert into item (name, note) values ('three lines',

    'of a statement');
release savepoint here;
commit;
insert into word values (2, 'two'), (3, 'three');
create temporary table scratch (id int);
insert into scratch values (1);
insert into word select id + 100, 'from a temporary table' from scratch;
drop temporary table scratch;
set @statement = concat('insert into item (name, note) values (''long'', ''', repeat('0123456789', 7000), ''')');
prepare long_statement from @statement;
execute long_statement;

-- Definitions.

create view cheap as select name from item where price < 2;
create trigger counted before insert on word for each row set @count = @count + 1;
create procedure added(in a varchar(40)) insert into item (name) values (a);
create function doubled(a int) returns int deterministic return 2 * a;
call added('by a procedure');
insert into word values (4, 'doubled'), (doubled(50), 'function');
create event daily on schedule every 1 day disable do delete from word;
create user reader@localhost identified by 'a password';
grant select on shop.* to reader@localhost;
alter user reader@localhost identified by 'another password';
create definer = reader@localhost view dear as select name from item where price > 2;
drop user if exists reader@localhost, nobody@localhost;
alter table item add column extra int default 5, add key (extra);
alter table item rename column extra to more;
create table renamed like item;
rename table renamed to also_renamed;
truncate table word;
drop table if exists also_renamed, never_there;
analyze table item;
create table parted (id int, a int) partition by range (id) (partition p0 values less than (10), partition p1
    values less than maxvalue);
insert into parted values (1, 1), (100, 100);
alter table parted truncate partition p1;
create tablespace apart add datafile 'apart.ibd';
drop tablespace apart;
create role seller;
drop role seller;
create database `näme 東京 "x"`;
drop database `näme 東京 "x"`;
alter database other default character set utf8mb4;
flush tables;

-- Rows.

flush binary logs;
set session binlog_format = 'ROW', session binlog_rows_query_log_events = 1;
insert into item (name, note) values ('with its statement', 'Grüße, 東京');
update item set price = 9 where name like 'copy%';
insert into parted values (2, 2), (200, 200), (3, 3);
update parted set id = id + 50 where id < 10;
set session binlog_rows_query_log_events = 0;
begin;
insert into item (name) select concat('row ', name) from item;
savepoint here;
delete from item where name like 'row copy%';
rollback to here;
update item, other.thing set item.price = 1, thing.item = 7 where item.id = thing.id;
commit;
call added('by a procedure, as a row');
delete from item where id = 3;
set session binlog_format = 'MIXED';
insert into item (name) values ('safe');
insert into item (name) values (uuid());
insert into numbers (id, a) values (1000, rand());
set session binlog_format = 'ROW';

-- XA transactions.

xa start 'first';
insert into item (name) values ('prepared and committed');
xa end 'first';
xa prepare 'first';
xa commit 'first';
xa start x'00ff27', 'branch', 77;
insert into item (name) values ('prepared and rolled back');
xa end x'00ff27', 'branch', 77;
xa prepare x'00ff27', 'branch', 77;
xa rollback x'00ff27', 'branch', 77;
xa start '0123456789012345678901234567890123456789012345678901234567890123',
    'abcdefghijabcdefghijabcdefghijabcdefghijabcdefghijabcdefghijabcd', 2147483647;
update item set price = 1 where id = 5;
xa end '0123456789012345678901234567890123456789012345678901234567890123',
    'abcdefghijabcdefghijabcdefghijabcdefghijabcdefghijabcdefghijabcd', 2147483647;
xa prepare '0123456789012345678901234567890123456789012345678901234567890123',
    'abcdefghijabcdefghijabcdefghijabcdefghijabcdefghijabcdefghijabcd', 2147483647;
xa commit '0123456789012345678901234567890123456789012345678901234567890123',
    'abcdefghijabcdefghijabcdefghijabcdefghijabcdefghijabcdefghijabcd', 2147483647;
xa start 'one phase';
insert into item (name) values ('one phase');
xa end 'one phase';
xa commit 'one phase' one phase;
xa start 'between';
insert into item (name) values ('prepared, and committed later');
xa end 'between';
xa prepare 'between';
insert into word values (11, 'between');
xa commit 'between';

-- GTIDs with tags.

set gtid_next = 'automatic:first';
insert into item (name) values ('tagged');
insert into item (name) values ('tagged');
set gtid_next = 'automatic:_second_tag_of_32_characters_23';
create table tagged (id int);
drop table tagged;
set gtid_next = 'abababab-abab-abab-abab-abababababab:7';
insert into item (name) values ('another source');
set gtid_next = 'abababab-abab-abab-abab-abababababab:third:9223372036854775805';
insert into item (name) values ('a great number');
set gtid_next = 'abababab-abab-abab-abab-abababababab:third:3';
begin;
commit;
set gtid_next = 'automatic';

-- Compressed transactions.

flush binary logs;
set session binlog_transaction_compression = 1;
insert into item (name, note) values ('compressed', repeat('compressed', 100));
begin;
update item set price = 3 where id < 20;
insert into item (name, note) values ('compressed', repeat('also compressed', 1000));
commit;
set session binlog_format = 'STATEMENT';
insert into item (name) values ('a compressed statement');
set session binlog_format = 'ROW', session binlog_transaction_compression = 0;
flush binary logs;

-- Logs of a small size.

set global max_binlog_size = 4096;
insert into item (name, note) values ('rotated', repeat('x', 3000));
insert into item (name, note) values ('rotated', repeat('y', 3000));
insert into item (name, note) values ('rotated', repeat('z', 10000));
insert into item (name) values ('rotated');
set global max_binlog_size = default;
flush binary logs;

-- Transactions without GTIDs, which may change tables of several engines.

set global gtid_mode = on_permissive;
set gtid_next = 'anonymous';
insert into item (name) values ('anonymous');
set gtid_next = 'automatic';
set global gtid_mode = off_permissive;
insert into item (name) values ('anonymous, too');
set global gtid_mode = off;
set global enforce_gtid_consistency = off;
begin;
insert into item (name) values ('not transactional');
insert into word values (21, 'it stays');
rollback;
begin;
insert into word values (20, 'mixed engines');
insert into item (name) values ('mixed engines');
rollback;
begin;
insert into word values (22, 'row');
insert into item (name) values ('mixed engines');
commit;
create table chosen as select id, name, note from item where id < 100;
begin;
insert into item (name) values ('in a transaction of a temporary table');
create temporary table scratch as select id from item;
drop temporary table scratch;
commit;
xa start 'anonymous';
insert into item (name) values ('anonymous');
xa end 'anonymous';
xa prepare 'anonymous';
xa rollback 'anonymous';
set session binlog_transaction_compression = 1;
insert into item (name, note) values ('compressed', repeat('compressed', 100));
set session binlog_transaction_compression = 0;
set session binlog_format = 'STATEMENT';
insert into word values (23, 'a statement');
set session binlog_format = 'ROW';
set global enforce_gtid_consistency = on;
set global gtid_mode = off_permissive;
set global gtid_mode = on_permissive;
insert into item (name) values ('with a GTID again');
set global gtid_mode = on;
insert into item (name) values ('all have GTIDs');
flush binary logs;
