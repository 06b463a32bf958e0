-- A contest for tests/desk/store_files.py, with rows in each table and rejudgings in each state. Each case of
-- store_rows.tsv changes it. The tables themselves are those of crates/contest_store_tables/src/texts.rt.
INSERT INTO desk VALUES (1, 2);
INSERT INTO contest VALUES (1, 'demo', 'Demo Cup', 18000000, 3600000, 20, 0, 4, 4, 4, 1709370000000, NULL, NULL);
INSERT INTO items VALUES
  (0, 1, 'AC', 'correct', '', 0, 1, 0, ''),
  (0, 2, 'WA', 'wrong answer', '', 0, 0, 1, ''),
  (0, 3, 'CE', 'compile error', '', 0, 0, 0, ''),
  (1, 1, 'cpp', 'C++', '', 0, 0, 0, ''),
  (1, 2, 'java', 'Java', '', 0, 1, 0, ''),
  (2, 1, 'north', 'North', '', 0, 0, 0, ''),
  (2, 2, 'south', 'South', '', 0, 0, 0, ''),
  (2, 3, 'guests', 'Gäste', '', 0, 0, 0, ''),
  (3, 1, 'a', 'Apples', 'A', 0, 0, 0, ''),
  (3, 2, 'b', 'Bridges', 'B', 1, 0, 0, ''),
  (4, 1, 't1', 'Alpha', '', 0, 0, 0, 'north guests'),
  (4, 2, 't2', 'Beta', '', 0, 0, 0, 'south'),
  (4, 3, 't3', 'Gamma', '', 0, 0, 0, ''),
  (4, 4, 't9', 'Staff', '', 0, 1, 0, '');
INSERT INTO accounts VALUES
  ('a1', 0, 't1', x'2f58c0ce82617fb2d6ad965c333abaccc6a8e76e3dcb8ab4fa71db478052ca5e'),
  ('a2', 0, 't2', x'7e3a1ce0b2e5d22a1d9266be95009074973727c5b0b0ee661197eb295b958b16'),
  ('a3', 0, 't3', x'528333864f6dc1009d6d0a3a9d5bf922b823bfdc4e441f859b542f47bca3f869'),
  ('a9', 0, 't9', x'3730df710a7b7f9acfea32b0c1fd4747cf7a0d60e0e04d57dcff88c4e7044b19'),
  ('adm', 2, NULL, x'f2772434a0a3597a261ad0ea586aeb167320aa5b79c25884fc94f28fa1d3d00e'),
  ('j1', 1, NULL, x'13d09d829b6d0d771563e92c15f9200e1dba91a0b95cbd6e96b3f6310cb146cd'),
  ('j2', 1, NULL, x'52a22bd959858c31a312c0d9faf4b6756d1c78d45e1113f0ce5efee4256f927e');
INSERT INTO submissions VALUES
  (1, 1, 1, 1709370300000, 'a', 'cpp', NULL, CAST('int main() {}' AS BLOB), 'first'),
  (2, 2, 1, 1709370400000, 'b', 'java', 'Main', CAST('class Main {}' AS BLOB), 'first'),
  (3, 1, 2, 1709370500000, 'a', 'cpp', NULL, x'', NULL),
  (4, 4, 1, 1709370500000, 'b', 'cpp', NULL, x'00ff', NULL),
  (5, 1, 3, 1709387999999, 'b', 'java', 'Main', x'41', 'second');
INSERT INTO proposals VALUES
  (1, 1, 1, 'WA', 'j1', 1709370310000),
  (2, 1, 1, 'AC', 'import', 1709370320000),
  (3, 2, 1, 'CE', 'j2', 1709370330000),
  (4, 1, 2, 'WA', 'j2', 1709370510000);
INSERT INTO releases VALUES
  (1, 1, 1, 1, 'WA', 1709370350000),
  (2, 2, 1, 1, 'CE', 1709370450000),
  (3, 1, 2, 1, 'AC', 1709370550000),
  (4, 1, 1, 2, 'AC', 1709370560000);
INSERT INTO rejudgings VALUES (1, 'tests of problem a', 1), (2, 'the compiler', 0), (3, 'none of it', 2);
INSERT INTO members VALUES
  (1, 1, 1, 1, 'AC', NULL, 1),
  (1, 2, 1, 2, 'AC', NULL, 1),
  (2, 1, 2, 1, 'WA', 'j1', 0),
  (2, 2, 1, 1, NULL, NULL, 0),
  (3, 1, 2, 1, NULL, NULL, 0);
INSERT INTO notices VALUES
  (1, 0, 0, 1, 1, 'j1', NULL, NULL, 'Welcome', 1709369940000, 'hello'),
  (2, 1, 1, 1, 0, 'a1', 'a', NULL, 'How many apples?', 1709370600000, 'ask'),
  (3, 1, 1, 2, 1, 'j2', 'a', 'c1-1', 'Read the statement.', 1709370700000, NULL),
  (4, 1, 2, 1, 0, 'a2', NULL, 'g-1', 'Thank you', 1709370800000, 'ask');
