<TeXmacs|0.2.3>

<style|article>

<\body>
<\expand|make-title>
<expand|title|The herring of 1899>

<expand|author|Per Holm>

<expand|title-date|10 May 1999>
</expand>

<\expand|abstract>
What the books of the harbour say of one summer.
</expand>

<section|The boats>

Forty boats went out, as <expand|name|Dahl> <expand|em|himself> wrote:

<\expand|quote-env>
The sea was white with them.
</expand>

<\expand|itemize>
<item>They came on <expand|strong|2 June>.

<item>They left in a <apply|em|week>.
</expand>

<\expand|remark>
A barrel holds 115 litres.
</expand>
</body>
