<TeXmacs|2.1>

<style|letter>

<\body>
<\letter-header>
Rowing Club of Torne

12 Quay Street

<letter-date|4 April 2026>
</letter-header>

<\destination>
Mrs. A. Laine

3 Mill Lane
</destination>

<opening|Dear Mrs. Laine,>

we open the season on <strong|2 May>, and would be glad to see you. There will be

<\itemize>
<item>coffee and cake from 3 p.m.;

<item>a race of the old boats, the <em|Heron> among them.
</itemize>

Please tell us by 20 April whether you will come.

<closing|With kind regards,>

<signature|Ilmari Koski>

<encl|programme>

<cc|the boat house>
</body>
