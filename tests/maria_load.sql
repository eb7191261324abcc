-- The load of one session: each kind of event that MariaDB logs without replication and without encryption.

-- Statements.

create database shop character set utf8mb4;
use shop;
create table item (id int primary key auto_increment, name varchar(40), price decimal(10, 2), note mediumtext, key (name))
    engine = InnoDB;
create table word (id int primary key, text varchar(100)) engine = MyISAM;
create table page (id int primary key, text varchar(100)) engine = Aria;
insert into item (name, price) values ('apple', 1.20), ('pear', 0.80), ('plum', 2.00);
begin;
insert into item (name, price, note) values ('nut', 3, repeat('a long note ', 20));
update item set price = price + 1 where id < 3;
delete from item where name = 'pear';
savepoint before_insert;
insert into item (name) values ('gone');
rollback to before_insert;
release savepoint before_insert;
commit;
insert into word select seq, concat('word ', seq) from seq_1_to_50;
insert into item (name, note)
    values ('three lines',

    'Grüße, 東京');
begin;
insert into item (name) values ('rolled back');
insert into word values (51, 'not rolled back');
rollback;
set @name = 'a user variable';
insert into item (name, price) values (@name, 5);
set statement binlog_format = 'STATEMENT' for insert into item (name, price) values ('random', rand(7) * 100);
prepare long_statement from concat('insert into item (name, note) values (''long'', ''', repeat('0123456789', 7000), ''')');
execute long_statement;
create sequence numbers;
select next value for numbers;
create view cheap as select name from item where price < 2;
create trigger counted before insert on word for each row set @count = @count + 1;
create table copied like item;
create temporary table scratch (id int);
drop temporary table scratch;
flush tables;
analyze table item;

-- Rows.

flush binary logs;
set session binlog_format = 'ROW';
insert into word values (100, uuid());
begin;
insert into word values (101, uuid());
insert into item (name, note) values ('mixed engines', uuid());
insert into page values (1, 'x');
rollback;
insert into item (name, note) select concat('row ', seq), repeat(char(65 + seq % 26), seq) from seq_1_to_300;
update item set note = concat(note, ' changed') where name like 'row 1%';
delete from item where name like 'row 2%';
insert into item (name) values ('two tables'); insert into page values (2, 'two tables');
replace into page values (2, 'replaced'), (3, 'new');
insert into item (id, name) values (1, 'again') on duplicate key update name = 'on duplicate';
insert into item (name, note) values ('long', repeat('abcdefghij', 10000));
update item, page set item.note = 'joined', page.text = 'joined' where page.id = 3 and item.id = 1;
set session binlog_row_image = 'MINIMAL';
update item set price = 9 where name like 'row 3%';
delete from item where name = 'row 30';
set session binlog_row_image = 'NOBLOB';
update item set price = 8 where name like 'row 3%';
set session binlog_row_image = 'FULL';
create table wide as select seq as c1, seq c2, seq c3, seq c4, seq c5, seq c6, seq c7, seq c8, seq c9, seq c10 from seq_1_to_3;
update wide set c10 = 0 where c1 = 2;
create table selected as select id, name, note from item where id < 100;
truncate table page;

-- XA transactions.

xa start 'first';
insert into item (name) values ('prepared and committed');
xa end 'first';
xa prepare 'first';
xa commit 'first';
xa start X'00ff27', 'branch', 77;
insert into item (name) values ('prepared and rolled back');
xa end X'00ff27', 'branch', 77;
xa prepare X'00ff27', 'branch', 77;
xa rollback X'00ff27', 'branch', 77;
xa start '0123456789012345678901234567890123456789012345678901234567890123',
    'abcdefghijabcdefghijabcdefghijabcdefghijabcdefghijabcdefghijabcd', 2147483647;
update item set price = 1 where id = 1;
xa end '0123456789012345678901234567890123456789012345678901234567890123',
    'abcdefghijabcdefghijabcdefghijabcdefghijabcdefghijabcdefghijabcd', 2147483647;
xa prepare '0123456789012345678901234567890123456789012345678901234567890123',
    'abcdefghijabcdefghijabcdefghijabcdefghijabcdefghijabcdefghijabcd', 2147483647;
xa commit '0123456789012345678901234567890123456789012345678901234567890123',
    'abcdefghijabcdefghijabcdefghijabcdefghijabcdefghijabcdefghijabcd', 2147483647;
xa start 'one phase';
insert into item (name) values ('one phase');
xa end 'one phase';
xa commit 'one phase' one phase;
set statement binlog_format = 'STATEMENT' for do 1;

-- Domains and servers.

set session gtid_domain_id = 9, session server_id = 4294967295;
insert into item (name) values ('domain 9');
set session gtid_seq_no = 18446744073709551615;
insert into item (name) values ('the greatest number');
set session gtid_domain_id = 4294967295, session server_id = 1;
insert into item (name) values ('the greatest domain');
set session gtid_domain_id = 5, session gtid_seq_no = 0;
insert into item (name) values ('domain 5');
set session server_id = 2;
insert into item (name) values ('domain 5');
set session gtid_domain_id = 3;
insert into item (name) values ('another server');
set session gtid_domain_id = 3, session server_id = 7;

-- An ALTER TABLE in two phases, and one that fails.

set session binlog_alter_two_phase = 1;
alter table item add column extra int;
alter table item drop column extra, add column more varchar(20) default 'more';
delimiter //
begin not atomic
    declare continue handler for sqlexception set @failed = 1;
    alter table item add unique key (price);
end//
delimiter ;
set session binlog_alter_two_phase = 0;

-- Transactions that may not be replicated in parallel.

flush binary logs;
set session skip_parallel_replication = 1;
insert into item (name) values ('not in parallel');
insert into word values (102, 'not in parallel');
set session skip_parallel_replication = 0;

-- Other forms of the log: without compression, with the whole metadata of tables, with longer texts compressed alone,
-- without checksums.

set global log_bin_compress = 0;
insert into item (name, note) values ('not compressed', 'not compressed');
create table plain (id int primary key, bits bit(10), day date, moment timestamp(6) null, kind enum('a', 'b'), kinds set('x', 'y'));
insert into plain values (1, b'1010101010', '2026-11-26', '2026-11-26 12:00:00.123456', 'b', 'x,y'), (2, null, null, null, null, null);
set global log_bin_compress = 1;
set global binlog_row_metadata = 'FULL';
insert into plain select id + 2, bits, day, moment, kind, kinds from plain;
set global log_bin_compress_min_len = 200;
insert into item (name, note) values ('short', 'short');
insert into item (name, note) values ('longer', repeat('longer', 100));
set session binlog_annotate_row_events = 0;
insert into item (name, note) values ('without annotation', repeat('x', 1000));
set session binlog_annotate_row_events = 1;
set global log_bin_compress_min_len = 10;
set global binlog_checksum = 'NONE';
insert into item (name, note) values ('without a checksum', repeat('without a checksum', 30));
create table last (id int);
delete from item where name like 'row 1%';
drop table last;
set global binlog_checksum = 'CRC32';
drop table plain, wide;
