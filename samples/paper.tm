<TeXmacs|2.1>

<style|article>

<\body>
<doc-data|<doc-title|Walks on a staircase>|<doc-author|<author-data|<author-name|Kofi Oduya>|<author-affiliation|School of Mines, Tarkwa>|<author-email|oduya@example.org>>>|<doc-date|2 June 2026>>

<abstract-data|<\abstract>
We count the ways to climb a staircase by one step or two steps at a time.
</abstract>|<abstract-keywords|staircase|recurrence>>

<section|The question>

A staircase has <math|n> steps<footnote|The landing counts as a step.>. By <math|w<rsub|n>> we mean the number of ways to climb it. So <math|w<rsub|1>=1> and <math|w<rsub|2>=2>, and we ask for the others, as <cite|Lucas91> did.

<section|The answer>

<\theorem>
<dueto|Lucas>For <math|n\<geq\>3> we have

<\equation>
w<rsub|n>=w<rsub|n-1>+w<rsub|n-2>.
</equation>

The first move decides.
</theorem>

<\proof>
Two things can happen:

<\enumerate>
<item>The first move takes one step, and <math|n-1> steps are left.

<item>It takes two, and <math|n-2> are left.
</enumerate>

No way is counted twice.
</proof>

<\corollary>
A staircase of 8 steps is climbed in 34 ways.
</corollary>

<big-table|<tabular|<tformat|<cwith|1|-1|1|-1|cell-halign|r>|<table|<row|<cell|<math|n>>|<cell|1>|<cell|2>|<cell|3>|<cell|4>|<cell|5>|<cell|6>|<cell|7>|<cell|8>>|<row|<cell|<math|w<rsub|n>>>|<cell|1>|<cell|2>|<cell|3>|<cell|5>|<cell|8>|<cell|13>|<cell|21>|<cell|34>>>>>|The numbers of ways>

<\bibliography|bib|plain|stairs>
<\bib-list|1>
<bibitem*|Lucas91>E. Lucas. <em|Th\<#E9\>orie des nombres>. Paris, 1891.
</bib-list>
</bibliography>
</body>
