1 + 2 * 3 - 4 < 5 && true || false

(1 + 2) * (3 - (4 - 5))

principal == resource || context has a && !context.b

1 - 2 - 3

if 1 < 2 then 3 else 4 + 5

(if true then 1 else 2) + 3

if true then if false then 1 else 2 else if true then 3 else 4

true && (false && true) || (true || false)

1 != 2 && 1 > 2 && 1 >= 2

!(1 == 2)

-1

--1

-(1)

1 - -1

- 9223372036854775808

-principal.age

-1.age

!!true

!(-principal)

!-principal

1in [1, 2]

if 1<2then 3 else 4

true // a comment ends at a carriage return&& false

!(principal in resource)

principal has a

principal has a.b.c

principal has "a b" && principal has "c"

principal.name like "a*\*\u{41}\x42\n\"*"

principal is User

principal is Org::User in Org::Group::"staff" && true

context.tags.contains(1).a

context.tags.isEmpty() || context.tags.containsAll([1, 2,])

resource.hasTag("a") && resource.getTag("a") == 1

ip("10.0.0.1").isInRange(ip("10.0.0.0/8"))

my::function(1, my::function()).method()

{"a b": 1, c: {}, d: [[], [1]],}

{a: 1}["a"].b["c d"]["e"]

User::"alice" == ?principal

unknown("x") < 1 + unknown("a \"b\"")

1 // one
  + /* no
  2

1 // one
  + 2 // two

"\0\t\r\n\\\'\u{1F408} é🐈"

// nothing but a comment

1 +

(1

1 2

1 < 2 < 3

(1 < 2) == true == false

1 + if true then 1 else 2

!!!!!true

"abc

1 == "\q"

"a barecarriage return"

"a\*"

principal like "\q"

principal like x

principal has 1

principal is "x"

principal is A::"x"

User::1

user

principal.if

?other

{a: 1, "a": 2}

{a 1}

{a: 1

[1, 2

f(1 2)

f(1,, 2)

if true 1

if true then 1

9223372036854775808

-9223372036854775809

1a

context.tags.contains()

context.tags.isEmpty(1)

context[a]

principal has a.b like "c"

1 # 2

true &&
  (1 <
	2 3)

"é🐈" + ]
  && true

a::b(1)::c

if true then 1 else 2

true || false

true || false || true

true && false && true

1 + 2 < 3

1 + 2 - 3

2 * 3 * 4

principal.age

--principal.age

principal.address["zip code"]

1

true && false

1 + 2

1 - 2

2 * 3

1 == 2

1 != 2

1 < 2

1 <= 2

1 > 2

1 >= 2

principal in resource

principal has address.city

"report.pdf" like "*.pdf"

principal is Org::User

principal is User in Group::"staff"

!true

-5

--5

principal

principal["first name"]

[1, 2].contains(1)

true

false

42

"a\n"

?principal

context

Org::User::"alice"

ip("10.0.0.1")

(1 + 2)

[1, 2]

{name: "a", age: 2}

[]

[1]

[1, 2,]

{}

{"first name": "a"}

{name: "a", age: 2,}

principal has age

principal has "first name"
